# shellcheck shell=bash
# The hints of the script npfctl, which sources this: what a user may do about an answer of the program. They are at most three lines on
# standard error, behind the program's own. The program itself has none, and its answers and statuses don't change.
#
# `hint_about STATUS FILE COMMAND WORDS..`: FILE has what the program put on standard error, COMMAND is the program, WORDS are what it was given.
# Where a fault is told, `said` is its line without the program's name. The script sets `page5` and `page8`, the files of the manual pages.
# shellcheck disable=SC2034,SC2154 # words.bash has what reads and sets the rest

# Behind a fault of a configuration what `why` says of it below its line, where its file and that of the interfaces can be read again. The fault
# of a run whose captures bring interfaces of their own may be another.
tell_why() {
  local status=$1 said program=$3 command=${4-} conf files ifaces load write workers spread on wrong
  said=$(cat "$2")
  shift 3
  [ "$status" -eq 3 ] && [ "$command" != why ] && [[ ${said#npfctl: } =~ ^(.*):[0-9]+:[0-9]+:' ' ]] || return 0
  conf=${BASH_REMATCH[1]}
  read_words "$@"
  [ "$conf" != "$ifaces" ] || conf=${files[0]}
  [ -f "$conf" ] && [ -f "${ifaces:-$conf}" ] || return 0
  "$program" why ${ifaces:+"--ifaces=$ifaces"} -- "$conf" 2>/dev/null |
    line=$said awk 'NR == 1 && $0 != ENVIRON["line"] { exit } NR > 1' >&2
}

# Some bytes of a file in hexadecimal, from a place on. Pipes and devices aren't read again.
bytes_of() {
  [ ! -f "$1" ] || od -An -v -tx1 -j "$2" -N "$3" -- "$1" 2>/dev/null | tr -d ' \n'
}

is_empty() {
  [ -f "$1" ] && [ ! -s "$1" ]
}

# A line of a file, without bytes of zero.
line_of() {
  [ ! -f "$1" ] || sed -n "$2{p;q;}" "$1" 2>/dev/null | tr -d '\0'
}

# The format of a capture, or of what is compressed, by its first bytes; nothing where it is another.
format_of() {
  case $(bytes_of "$1" 0 8) in
    d4c3b2a1* | 4d3cb2a1* | a1b2c3d4* | a1b23c4d*) echo pcap ;;
    0a0d0d0a*) echo pcapng ;;
    34cdb2a1* | a1b2cd34*) echo modified ;;
    736e6f6f70000000) echo snoop ;;
    1f8b*) echo gzip ;;
    425a68*) echo bzip2 ;;
    fd377a585a00*) echo xz ;;
    28b52ffd*) echo zstd ;;
    04224d18*) echo lz4 ;;
    504b0304*) echo zip ;;
  esac
}

format_in_words() {
  case $1 in
    pcap) echo 'a capture' ;;
    modified) echo 'a capture in the modified format of an old libpcap' ;;
    pcapng | snoop) echo "a capture in the format $1" ;;
    *) echo "compressed by $1" ;;
  esac
}

# A command that makes the file that is wanted.
hint_recipe() {
  hint "$1"
  case $1 in
    *editcap*) is_by_editcap=1 ;;
  esac
}

# A command that takes some packets of a capture, by tcpdump's expression, or by tshark's where that alone is here, and cuts headers off by editcap.
hint_filter() {
  local reads="tcpdump -r $1 -w - '$2'"
  type -P tcpdump >/dev/null || ! type -P tshark >/dev/null || reads="tshark -r $1 -Y '$3' -w -"
  hint_recipe "$reads | editcap -F pcap $4 - NEW.pcap"
}

# How a file in another format becomes a capture that is read. Fails where it is in none that is known.
hint_format() {
  local format file makes='this makes'
  format=$(format_of "$1")
  file=$(printf %q "$1")
  case $format in
    pcapng | snoop | modified)
      [ "$format" != pcapng ] || makes='either of these makes'
      hint "$1 is $(format_in_words "$format"), and what is read is pcap; $makes it such a capture:"
      hint_recipe "editcap -F pcap $file NEW.pcap"
      [ "$format" != pcapng ] || hint_recipe "tcpdump -r $file -w NEW.pcap"
      ;;
    gzip | bzip2 | xz | zstd | lz4 | zip)
      hint "$1 is $(format_in_words "$format"), and what is read is pcap; this unpacks it:"
      format+=' -dc'
      hint_recipe "${format/#zip -dc/unzip -p} $file >NEW.pcap"
      ;;
    *) return 1 ;;
  esac
}

# That a file that is to be a text is none, where its first bytes say so: WHAT is what it is given as.
hint_binary() {
  [ -f "$1" ] && [ "$(head -c 512 -- "$1" | tr -dc '\0' | wc -c)" -gt 0 ] || return
  hint "$1 is given as $2, and is no text, as it has bytes of zero, nor in a format that is known here"
  [ "$2" != SCRIPT ] || hint_recipe "many formats of captures are read by editcap, which makes one of pcap: editcap -F pcap $(printf %q "$1") NEW.pcap"
}

# The link type of a capture, as the number that its header has.
link_of() {
  local at
  mapfile -t at < <(od -An -v -tu1 -w1 -j 20 -N 4 -- "$1" 2>/dev/null)
  [ "${#at[@]}" -eq 4 ] || return
  case $(bytes_of "$1" 0 4) in
    a1b2*) echo $((at[0] << 24 | at[1] << 16 | at[2] << 8 | at[3])) ;;
    *) echo $((at[3] << 24 | at[2] << 16 | at[1] << 8 | at[0])) ;;
  esac
}

# Sets `link` to the name of a link type, by https://www.tcpdump.org/linktypes.html, and `header` to how many bytes stand there before IP, or to
# nothing where no recipe is known. `mixed` says that packets of other protocols may be among them, and `fields` how tshark tells those of IP.
name_link() {
  link='' header='' mixed=1 fields=''
  case $1 in
    0) link=NULL header=4 mixed='' ;;
    6) link=IEEE802_5 ;;
    8) link=SLIP ;;
    9)
      link=PPP header=4 fields='ppp.protocol in {0x0021, 0x0057}'
      # the two bytes of PPP's framing may be left out, and then tcpdump finds no protocol
      [ "$(bytes_of "$2" 40 2)" = ff03 ] || header=2 mixed=''
      ;;
    10) link=FDDI ;;
    12 | 14)
      link=RAW header=0
      # 12 is also LOOP of OpenBSD, which begins with a small number of 32 bits, and IP never with a zero
      [ "$1 $(bytes_of "$2" 40 3)" != '12 000000' ] || link=LOOP header=4 mixed=''
      ;;
    50) link=PPP_HDLC header=4 fields='ppp.protocol in {0x0021, 0x0057}' ;;
    51) link=PPP_ETHER header=8 fields='ppp.protocol in {0x0021, 0x0057}' ;;
    104) link=C_HDLC header=4 fields='chdlc.protocol in {0x0800, 0x86dd}' ;;
    105) link=IEEE802_11 ;;
    108) link=LOOP header=4 mixed='' ;;
    113) link=LINUX_SLL header=16 fields='sll.etype in {0x0800, 0x86dd}' ;;
    117) link=PFLOG ;;
    127) link=IEEE802_11_RADIOTAP ;;
    192) link=PPI ;;
    228) link=IPV4 header=0 ;;
    229) link=IPV6 header=0 ;;
    239) link=NFLOG ;;
    253) link=NETLINK ;;
    276) link=LINUX_SLL2 header=20 fields='sll.etype in {0x0800, 0x86dd}' ;;
  esac
}

hint_link() {
  local number link header mixed fields file
  file=$(printf %q "$1")
  number=$(link_of "$1")
  [ -n "$number" ] || return
  if [ "$number" -ge 65536 ]; then
    hint "its link type is $number: $((number % 65536)), and above it the length of a frame check sequence, which this leaves out:"
    hint_recipe "editcap -F pcap $file NEW.pcap"
    return
  fi
  name_link "$number" "$1"
  hint "its link type is $number${link:+, $link}; what is read is 1, Ethernet, and 101, IP without a link header"
  case $header:$mixed in
    :*) ;;
    0:*) hint_recipe "editcap -F pcap -T rawip $file NEW.pcap" ;;
    *:) hint_recipe "editcap -F pcap -C $header -L -T rawip $file NEW.pcap" ;;
    *) hint_filter "$file" 'ip or ip6' "$fields" "-C $header -L -T rawip" ;;
  esac
  [ "$number" -ne 276 ] || hint 'npfctl(8), EXAMPLES, parts such a capture by interface and direction'
}

# The captures of a run: the file that stands for SCRIPT, or those that it names.
captures_of() {
  if [ "$(format_of "$1")" = pcap ]; then
    printf '%s\n' "$1"
  else
    sed -nE 's/^[[:blank:]]*capture[[:blank:]].*"(.*)"[[:blank:]]*$/\1/p' "$1"
  fi
}

# The configurations that a script loads.
reloads_of() {
  sed -nE 's/^[[:blank:]]*reload[[:blank:]]*"(.*)"[[:blank:]]*$/\1/p' "$1"
}

# The rules of a run: the texts of CONF and of what SCRIPT loads, and the rules that this adds, without comments and what stands in quotes.
texts_of_rules() {
  local script=${files[1]} texts=("${files[0]}") it
  [ "$(format_of "$script")" = pcap ] || mapfile -O 1 -t texts < <(reloads_of "$script")
  for it in "${texts[@]}"; do
    [ ! -f "$it" ] || cat -- "$it"
  done | sed 's/#.*//; s/"[^"]*"//g'
  [ "$(format_of "$script")" = pcap ] || sed -nE 's/^[[:blank:]]*rule[[:blank:]]+[^[:blank:]]+[[:blank:]]+add[[:blank:]]//p' "$script"
}

# That workers which take turns had packets of connections, of which one may be handled before the packet that opens its connection.
hint_workers() {
  local rules what='--spread flow gives a connection one worker'
  [ "$((10#${workers#+}))" -gt 1 ] && [ "$spread" = rr ] || return
  rules=$(texts_of_rules)
  grep -qwE 'stateful|dynamic' <<<"$rules" || return
  ! grep -qw map <<<"$rules" || what='as a map translates, one worker alone keeps the order'
  hint "workers that take turns may handle an answer before its question, so that calls differ; $what"
}

# Whether none of these captures has a packet. What is no file is taken to have one.
are_without_packets() {
  local capture
  for capture; do
    [ -f "$capture" ] && [ -z "$(bytes_of "$capture" 24 1)" ] || return
  done
}

# Looks at the first 65,536 bytes of a capture, and prints of the packets there: how many; how many of them have less of IP than its header says,
# since they were cut as they were recorded, and the most bytes that are left of such a one; how many have a VLAN's tag, the number that most of
# them have, and that of the tag behind it, or 0; how many are of PPPoE; and how many are neither IP nor too short to tell. An EtherType stands at
# byte 12 of Ethernet, and behind a tag another, 4 bytes on (IEEE 802.1Q, RFC 2516).
looks_of() {
  od -An -v -tu1 -N 65536 -- "$1" 2>/dev/null | awk '
    function pair(at) { return byte[at] * 256 + byte[at + 1] }
    function number(at) { return is_lowest_first ? pair_back(at + 2) * 65536 + pair_back(at) : pair(at) * 65536 + pair(at + 2) }
    function pair_back(at) { return byte[at + 1] * 256 + byte[at] }
    function is_short(at, left) {
      if (kind == 2048) return left < 20 || left < pair(at + 2)
      return kind == 34525 && (left < 40 || left < 40 + pair(at + 4))
    }
    function is_tag(kind) { return kind == 33024 || kind == 34984 }
    { for (i = 1; i <= NF; i++) byte[n++] = $i }
    END {
      is_lowest_first = byte[0] != 161
      is_ethernet = number(20) == 1
      for (at = 24; at + 16 <= n; at += 16 + stored) {
        stored = number(at + 8)
        if (at + 16 + stored > n) break
        packets++
        kind = is_ethernet ? pair(at + 28) : byte[at + 16] < 96 ? 2048 : 34525
        link = 14 * is_ethernet
        if (stored < link) continue
        if (stored < number(at + 12) && is_short(at + 16 + link, stored - link)) { cut++; if (stored > left) left = stored }
        if (!is_ethernet || stored < 20) continue
        if (kind != 2048 && kind != 34525) others++
        if (kind == 34916) pppoe++
        if (!is_tag(kind)) continue
        tagged++
        tags = pair(at + 30) % 4096 " " (is_tag(pair(at + 32)) ? pair(at + 34) % 4096 : 0)
        if (++count[tags] > count[most]) most = tags
      }
      print packets + 0, cut + 0, left + 0, tagged + 0, (tagged ? most : "0 0"), pppoe + 0, others + 0
    }'
}

# Of a capture that a run read: that its packets, or at least half where there is a recipe, are of a kind that is skipped, or that some were cut.
# Fails where neither is so.
hint_packets() {
  local packets cut left tagged outer inner pppoe others file
  read -r packets cut left tagged outer inner pppoe others < <(looks_of "$1")
  file=$(printf %q "$1")
  if [ $((2 * tagged)) -ge "$packets" ] && [ "$tagged" -gt 0 ]; then
    hint "packets with a VLAN's tag are skipped, $tagged of the first $packets of $1; this makes a capture of those of VLAN $outer:"
    if [ "$inner" -eq 0 ]; then
      hint_recipe "tcpdump -r $file -w - 'vlan $outer and (ip or ip6)' | editcap -F pcap -C 12:4 -L - NEW.pcap"
    else
      hint_recipe "tcpdump -r $file -w - 'vlan $outer and vlan $inner and (ip or ip6)' | editcap -F pcap -C 12:8 -L - NEW.pcap"
    fi
  elif [ $((2 * pppoe)) -ge "$packets" ] && [ "$pppoe" -gt 0 ]; then
    hint "packets of PPPoE are skipped, $pppoe of the first $packets of $1; this makes a capture of what they carry:"
    hint_recipe "tcpdump -r $file -w - 'pppoes and (ip or ip6)' | editcap -F pcap -C 22 -L -T rawip - NEW.pcap"
  elif [ "$others" -eq "$packets" ] && [ "$others" -gt 0 ]; then
    hint "packets without IP right behind Ethernet are skipped, all of the first $packets of $1"
  elif [ "$cut" -gt 0 ]; then
    hint "packets that were cut as they were recorded are malformed, $cut of the first $packets of $1, to at most $left bytes"
    hint 'tcpdump -s 0 records whole packets'
  else
    return 1
  fi
}

# Whether the packets of a run came by other interfaces than those that the configuration's groups are bound to, so that only the default group
# was about them. The groups are asked for only where the text has none of the packets' interfaces as a word, but for variables and names of groups.
hint_interfaces() {
  local program=$1 conf=${files[0]} script=${files[1]} came=${on:-cap0} bound
  [ -f "$conf" ] || return
  if [ "$(format_of "$script")" != pcap ]; then
    ! grep -qw '^[[:blank:]]*reload' "$script" || return
    came=$(awk '$1 == "capture" && !seen[$2]++ { print $2 }' "$script")
  fi
  [ -n "$came" ] && grep -qw on "$conf" || return
  ! sed 's/#.*//; s/\$[[:alnum:]_]*//g; s/group[[:blank:]]*"[^"]*"//g' "$conf" | grep -qwF "$came" || return
  bound=$("$program" show "$conf" ${ifaces:+"--ifaces=$ifaces"} 2>/dev/null |
    sed -nE 's/^group "[^"]*"( in| out)?( on "(.*)")? \{$/\3/p' | sort -u)
  # a group that is bound to no interface is there as an empty line, which sorts first
  case $bound in
    '' | $'\n'*) return ;;
  esac
  ! grep -qxF "$came" <<<"$bound" || return
  hint "no group but the default one is about ${came//$'\n'/, }, by which the packets came: the others are on ${bound//$'\n'/, }"
  if [ "$(format_of "$script")" = pcap ]; then
    hint "--on says by which interface they came, as in: --on ${bound%%$'\n'*}; and --dir out that they went out"
  else
    hint "a script says by which interface they came, by a line such as: capture ${bound%%$'\n'*} in \"FILE\""
  fi
}

# Of a run that was done: that there were no packets, or none that the rules could decide on as they were meant to.
hint_done() {
  local script=${files[1]-} capture captures names
  [ -f "$script" ] || return
  if is_empty "$script"; then
    hint "$script is empty, so it was read as a script without a line; a capture has 24 bytes at least"
    hint 'tcpdump may leave none where it is killed; it writes all as it ends by INT or TERM, and with -U each packet at once'
    return
  fi
  mapfile -t captures < <(captures_of "$script")
  for capture in "${captures[@]}"; do
    if [ "$write" -ef "$capture" ]; then
      hint "$capture was read, and now has what --write put there"
      return
    fi
  done
  if [ ${#captures[@]} -eq 0 ]; then
    hint "$script was read as a script, and names no capture, so there were no packets"
    return
  fi
  if are_without_packets "${captures[@]}"; then
    printf -v names '%s, ' "${captures[@]}"
    hint "there were no packets: a header is all that stands in ${names%, }"
    hint 'nothing crossed there, or nothing that was asked for; of lo tcpdump -Q out records none, as what crosses lo is recorded as in'
    return
  fi
  hint_workers
  for capture in "${captures[@]}"; do
    [ ! -f "$capture" ] || ! hint_packets "$capture" || return
  done
  hint_interfaces "$1"
}

# The section of a manual page that explains a fault's number, and a command that shows the page.
hint_page() {
  local name='npfctl(8)' page=$page8 section='Changes of a configuration' besides=
  case $1 in
    [1-6]) section=Captures ;;
    34) section='The file of interfaces' ;;
    35) section='Table files' ;;
    [1-4]?)
      name='npf.conf(5)' page=$page5 section=FAULTS
      case $1 in
        10 | 20 | 32 | 47 | 48) besides=", and NOT BUILT what isn't built" ;;
      esac
      ;;
    70) section=Scripts ;;
    8?) section='The file of connections' ;;
  esac
  hint "$name, $section, says what $1 $2 means$besides: man $(printf %q "$page")"
}

# Whether a file has a line that only a configuration has, or only a script.
looks_like_configuration() {
  local rule='(pass|block)[[:blank:]]+(stateful|in|out|final|on|family|proto|from|to|all|return)'
  [ -f "$1" ] && grep -qE '^[[:blank:]]*(group[[:blank:]].*\{|table[[:blank:]]*<[^>]*>[[:blank:]]*type|procedure[[:blank:]]*"|\$[A-Za-z_]+[[:blank:]]*=|'"$rule)" -- "$1"
}

looks_like_script() {
  local capture='capture[[:blank:]]+[^[:blank:]]+[[:blank:]]+(in|out)[[:blank:]]'
  [ -f "$1" ] && grep -qE '^[[:blank:]]*(phase[[:blank:]]*$|reload[[:blank:]]+"|expire[[:blank:]]+[0-9]|'"$capture)" -- "$1"
}

# That a line ends in a carriage return, where it does.
hint_return() {
  case $(line_of "$1" "$2") in
    *$'\r') ;;
    *) return 1 ;;
  esac
  hint "line $2 of $1 ends in a carriage return, which is no blank there; this leaves them out of all lines:"
  hint "tr -d '\\r' <$(printf %q "$1") >NEW"
}

# That a line of a file of interfaces has a tab before its comment, where it does.
hint_tab() {
  local text
  text=$(line_of "$1" "$2")
  [[ ${text%%#*} == *$'\t'* ]] || return
  hint "line $2 of $1 has a tab, which is no space there; this makes spaces of all tabs:"
  hint "tr '\\t' ' ' <$(printf %q "$1") >NEW"
}

# That a text begins with a byte order mark, of UTF-8 or UTF-16, where it does.
hint_mark() {
  case $(bytes_of "$1" 0 3) in
    efbbbf)
      hint "$1 begins with a byte order mark, and no text that is read has one; this leaves it out:"
      hint "tail -c +4 $(printf %q "$1") >NEW"
      ;;
    fffe* | feff*)
      hint "$1 is in UTF-16, by its first bytes, and what is read is UTF-8; this makes it such a text:"
      hint "iconv -f UTF-16 -t UTF-8 $(printf %q "$1") >NEW"
      ;;
    *) return 1 ;;
  esac
}

# That what is given as CONF is a capture, compressed or a script, where it is.
hint_swapped() {
  local format what
  [ "$1" = "${files[0]}" ] || return
  format=$(format_of "$1")
  if [ -n "$format" ]; then
    what="is $(format_in_words "$format")"
  elif looks_like_script "$1"; then
    what='looks like a script'
  else
    return 1
  fi
  hint "$1 is given as CONF, and $what"
  hint "the words are: npfctl $(words_of "$command")"
}

# The first bytes of a text of one line.
shown_of() {
  printf %s "$1" | cut -b -60 | tr -c '[:print:]\n' '?'
}

# The line for which a table's file is refused. BEFORE is what the configuration has before the file's name.
hint_entry() {
  local file=$1 line=$2 before=$3 text kind='' prefix='^[[:blank:]]*[0-9A-Fa-f.:]+/[0-9]'
  text=$(line_of "$file" "$line")
  [ -n "$text" ] || return 0
  hint "line $line of $file is: $(shown_of "$text")"
  ! [[ $before =~ type[[:blank:]]+(ipset|const)[[:blank:]] ]] || kind=${BASH_REMATCH[1]}
  ! [[ -n $kind && $text =~ $prefix ]] || hint "a table of type $kind has single addresses; one of type lpm takes prefixes, too"
}

# What stands at a place of a configuration where something else is to stand, and what is missing there, as far as one can tell: TEXT is the line,
# THERE what it has from the place on, NUMBER the fault's.
hint_there() {
  local text=$1 there=$2 number=$3 before shown
  shown=$(shown_of "${there%$'\r'}")
  [ -z "$shown" ] || hint "what stands there is: $shown"
  before=${text:0:${#text}-${#there}}
  before=${before%%#*}
  if [ "$number" -eq 32 ]; then
    hint 'a number may stand there, too: /etc/services has those of ports, and /etc/protocols those of protocols'
  elif [[ $there =~ ^[A-Za-z_][A-Za-z0-9_.]*[[:blank:]]*= ]]; then
    hint 'a $ stands before the name of a variable, also where it is set'
  elif [[ -z $shown || $shown == [\}\;]* ]] && is_rule_without_ends "${before##*[;\{]}"; then
    hint 'a rule has all, from or to, and this one has none: all stands for every packet'
  fi
}

is_rule_without_ends() {
  [[ $1 =~ ^[[:blank:]]*(pass|block)([[:blank:]]|$) ]] && ! [[ $1 =~ [[:blank:]](all|from|to)([[:blank:]]|$) ]]
}

# Status 3.
hint_refused() {
  local file line column number name text there table entry
  [[ $said =~ ^(.*):([0-9]+):([0-9]+):' '([0-9]+)' '([A-Za-z]+)(' '([0-9]+))? ]] || return
  file=${BASH_REMATCH[1]} line=${BASH_REMATCH[2]} column=${BASH_REMATCH[3]} number=${BASH_REMATCH[4]} name=${BASH_REMATCH[5]} entry=${BASH_REMATCH[7]}
  if is_empty "$file"; then
    hint "$file is empty"
    return
  fi
  text=$(line_of "$file" "$line")
  there=$(printf %s "$text" | cut -b "$column"-)
  table=${there#*\"} table=${table%%\"*}
  case $number in
    # a backslash joins lines where a line feed alone is behind it
    10) [ "$there" != \\$'\r' ] || ! hint_return "$file" "$line" || return ;;
    34) ! hint_return "$file" "$line" && ! hint_tab "$file" "$line" || return ;;
    35) ! hint_mark "$table" && ! hint_return "$table" "$entry" || return ;;
  esac
  ! hint_swapped "$file" && ! hint_mark "$file" || return
  [ "$file" != "${files[0]}" ] || ! hint_binary "$file" CONF || return
  case $number in
    10 | 20 | 32) hint_there "$text" "$there" "$number" ;;
    31) [ -n "$ifaces" ] || hint '--ifaces FILE gives interfaces their addresses, by lines such as: wm0 192.0.2.1' ;;
    35) hint_entry "$table" "$entry" "${text:0:${#text}-${#there}}" ;;
    34) hint 'a line has the name of an interface and its addresses, as in: wm0 192.0.2.1 2001:db8::1' ;;
  esac
  hint_page "$number" "$name"
}

# Status 4. A name that no word has stands between quotes in CONF, in SCRIPT or in what that loads.
hint_unread() {
  local file=${said#cannot read } texts it line folder
  case $file in
    '') hint 'the name of a file is empty' ;;
    -) hint '- is the name of a file; standard input is /dev/stdin' ;;
  esac
  [ -n "${file#-}" ] || return
  if [ -d "$file" ]; then
    hint "$file is a folder"
    [ "$command" != run ] || [ "$file" != "${files[1]}" ] || hint 'a script names captures, each on a line such as: capture cap0 in "FILE"'
  elif [ -e "$file" ]; then
    [ -r "$file" ] || hint "$file is there, but may not be read"
  elif [[ $file == /* ]]; then
    hint "there is no $file"
  else
    hint "there is no $file in $PWD, the current folder, to which names of files are relative"
  fi
  [ ! -e "$file" ] || return
  if [ "$file" = "$ifaces" ]; then
    hint 'what stands behind --ifaces is a file, of lines such as: wm0 192.0.2.1'
    hint 'by which interface packets came a script says, by a line such as: capture wm0 in "FILE"'
    return
  fi
  texts=("${files[@]}")
  [ ! -f "${files[1]-}" ] || mapfile -O 2 -t texts < <(reloads_of "${files[1]}")
  for it in "${texts[@]}"; do
    if [ ! -f "$it" ] || [ -n "$(format_of "$it")" ] || ! line=$(grep -nFm 1 -- "\"$file\"" "$it"); then continue; fi
    folder=$(dirname -- "$it")
    if [[ $file != /* ]] && [ -e "$folder/$file" ]; then
      hint "line ${line%%:*} of $it names it, and beside that it is there: run npfctl in $folder"
    else
      hint "line ${line%%:*} of $it names it"
    fi
    [[ $file != *[*?]* && $file != '~'* ]] || hint 'the name is taken as it is there, and no others are put in its place: each file has a line'
    return
  done
}

# Status 5.
hint_unwritten() {
  local file=${said#cannot write } folder
  [ "$file" != 'standard output' ] || return
  folder=$(dirname -- "$file")
  if [ -d "$file" ]; then
    hint "$file is a folder"
  elif [ ! -d "$folder" ]; then
    hint "there is no folder $folder"
  elif [ -e "$file" ] && [ ! -w "$file" ]; then
    hint "$file is there, but may not be written"
  fi
}

# Status 6.
hint_saved() {
  local names
  [[ $said =~ ^(.*):' '([0-9]+)' '([A-Za-z]+) ]] || return
  if is_empty "${BASH_REMATCH[1]}"; then
    hint "${BASH_REMATCH[1]} is empty"
    return
  fi
  if [ "${BASH_REMATCH[2]}" -eq 81 ]; then
    names=$(sed -n 's/^if //p' "${BASH_REMATCH[1]}")
    hint "the run that saved it had the interfaces ${names//$'\n'/, }; a run has those of --ifaces, and then those of its captures"
  fi
  hint_page "${BASH_REMATCH[2]}" "${BASH_REMATCH[3]}"
}

# Status 7.
hint_capture() {
  local file
  [[ $said =~ ^(.*):' '([0-9]+)' '([A-Za-z]+) ]] || return
  file=${BASH_REMATCH[1]}
  case ${BASH_REMATCH[2]} in
    1) ! is_empty "$file" || { hint "$file is empty" && return; } ;;
    2) ! hint_format "$file" || return ;;
    4) hint_link "$file" && return ;;
    5)
      hint "$file ends inside that record, as where its recording was ended; this keeps what is whole before it:"
      hint_recipe "editcap -F pcap $(printf %q "$file") NEW.pcap"
      return
      ;;
  esac
  hint_page "${BASH_REMATCH[2]}" "${BASH_REMATCH[3]}"
}

# The forms of a script's line by its first word.
form_of() {
  case $1 in
    capture) echo 'capture INTERFACE in|out "FILE"' ;;
    phase) echo phase ;;
    packets) echo 'packets N|rest' ;;
    reload) echo 'reload "FILE"' ;;
    rule) echo 'rule NAME add TEXT, rule NAME rem-id N, rule NAME flush' ;;
    table) echo 'table NAME add|rem ADDRESS' ;;
    expire) echo 'expire SECONDS' ;;
  esac
}

# Status 8.
hint_line() {
  local file line number name text words form near marked='^[<"](.+)[>"]$'
  [[ $said =~ ^(.*):([0-9]+):' '([0-9]+)' '([A-Za-z]+) ]] || return
  file=${BASH_REMATCH[1]} line=${BASH_REMATCH[2]} number=${BASH_REMATCH[3]} name=${BASH_REMATCH[4]}
  if [ "$number" -eq 70 ]; then
    ! hint_format "$file" && ! hint_mark "$file" && ! hint_binary "$file" SCRIPT && ! hint_return "$file" "$line" || return
    text=$(line_of "$file" "$line" | tr -c '[:print:]\n' ' ')
    read -ra words <<<"$text"
    form=$(form_of "${words[0]-}")
    if looks_like_configuration "$file" && ! looks_like_script "$file"; then
      hint "$file is given as SCRIPT, a capture or what names some, and looks like a configuration"
      hint "the words are: npfctl $run_words"
      return
    elif [ "$line" -eq 1 ] && [ "${words[0]-}" = npf-connections ]; then
      hint "$file has saved connections, and is given as SCRIPT; --load takes it"
      return
    elif [[ -n $form && $text == *[[:blank:]]#* ]]; then
      hint "the form is: $form"
      hint 'a comment stands on a line of its own, whose first byte is #'
    elif [ -z "$form" ]; then
      near=$(nearest "${words[0]-}" capture phase packets reload rule table expire)
      [ -z "$(format_of "${words[0]-}")" ] || near="capture, as in: capture cap0 in \"${words[0]}\""
      hint "a script has no line that begins with ${words[0]-}${near:+; the nearest is $near}"
    elif [[ ${words[0]} != reload && ${words[1]-} =~ $marked ]]; then
      hint "a name stands there without signs round it: ${words[0]} ${BASH_REMATCH[1]}${words[2]:+ ${words[*]:2}}"
      return
    elif [[ ${words[0]}:${#words[@]} =~ ^(capture:4|reload:2)$ && $text != *\"* ]]; then
      # other signs may stand round it
      near=${words[-1]#[\'\`]}
      hint "the name of a file stands between double quotes: ${words[*]:0:${#words[@]}-1} \"${near%[\'\`]}\""
      return
    else
      hint "the form is: $form"
      hint 'lines of capture stand before the first phase, and all others behind one'
    fi
  elif [ "$number" -eq 53 ]; then
    read -ra words < <(line_of "$file" "$line")
    hint "table ${words[1]-} is of type ipset, which has single addresses; one of type lpm takes prefixes such as ${words[3]-}, too"
  fi
  hint_page "$number" "$name"
}

# Status 9.
hint_limit() {
  local file
  if [[ $said =~ ^'limit bytes '(.*)' over '[0-9]+$ ]]; then
    file=${BASH_REMATCH[1]}
    ! hint_swapped "$file" && ! hint_format "$file" || return
  fi
  hint "npfctl(8), Limits, has how much is taken; EXAMPLES runs a day's captures one after the other: man $(printf %q "$page8")"
}

# About a file that can't be read, where nothing is built: FILE, and then the words.
hint_unread_file() {
  local said="cannot read $1" command=$2 files ifaces load write workers spread on wrong
  read_words "${@:2}"
  hint_unread
}

hint_about() {
  local status=$1 said program=$3 command=${4-} files ifaces load write workers spread on wrong is_by_editcap=
  said=$(cat "$2")
  said=${said#npfctl: }
  shift 3
  if [ "$status" -eq 2 ]; then
    hint_words "$@"
    return
  fi
  [ $# -gt 0 ] || return
  read_words "$@"
  case $status in
    0) [ "$command" != run ] || hint_done "$program" ;;
    3) hint_refused ;;
    4) hint_unread ;;
    5) hint_unwritten ;;
    6) hint_saved ;;
    7) hint_capture ;;
    8) hint_line ;;
    9) hint_limit ;;
  esac
  [ -z "$is_by_editcap" ] || [ "$hints" -ge 3 ] || type -P editcap >/dev/null || hint 'editcap, which is not here, comes with Wireshark'
}

# shellcheck shell=bash
# The words of the command line, as the program reads them (npfctl(8), "The command line"), and the hints about words that are no command.
# The script npfctl sources this.
# shellcheck disable=SC2034 # hints.bash reads the rest

run_words='run CONF SCRIPT [--ifaces FILE] [--workers N] [--spread rr|flow] [--on IF] [--dir in|out] [--expire SECONDS] [--write FILE] [--load FILE] [--save FILE]'
text_words='CONF [--ifaces FILE]'
why_words='why CONF [--all] [--ifaces FILE]'
explain_words='explain CONF IF in|out CLASS [--ifaces FILE]'
query_words='query CONF CLASS [--ifaces FILE] [--steps N]'
check_words='check CONF EXPECTATIONS [--ifaces FILE] [--steps N]'
lint_words='lint CONF [--ifaces FILE] [--steps N]'
compare_words='compare OLD NEW [--ifaces FILE] [--steps N]'
run_options=(--ifaces --workers --spread --on --dir --expire --write --load --save)
most_number=18446744073709551615

# A hint is one line, whatever bytes a name in it has.
hints=0
hint() {
  printf 'npfctl: hint: %s\n' "${1//[[:cntrl:]]/?}" >&2
  hints=$((hints + 1))
}

# The nearest of some words to the first, by how many letters have to be put in, left out or changed: at most two, and fewer than stand in it.
# Its capitals count as small letters.
nearest() {
  printf '%s\n' "${1,,}" "${@:2}" | awk '
    function least(a, b) { return a < b ? a : b }
    function distance(a, b, i, j, row, kept, before) {
      for (j = 0; j <= length(b); j++) row[j] = j
      for (i = 1; i <= length(a); i++) {
        before = row[0]; row[0] = i
        for (j = 1; j <= length(b); j++) {
          kept = row[j]
          row[j] = least(least(row[j], row[j - 1]) + 1, before + (substr(a, i, 1) != substr(b, j, 1)))
          before = kept
        }
      }
      return row[length(b)]
    }
    NR == 1 { word = $0; best = least(3, length(word)); next }
    { far = distance(word, $0); if (far < best) { best = far; found = $0 } }
    END { print found }'
}

# The options that a word of one letter may mean, as -w, or else the one that is nearest.
near_options() {
  local letter=${1#-} found='' it
  if [ ${#letter} -eq 1 ]; then
    for it in "${@:2}"; do
      [[ $it != "--$letter"* ]] || found+="${found:+ or }$it"
    done
    printf '%s' "${found:+; its name is written out, as $found}"
  else
    found=$(nearest "$@")
    printf '%s' "${found:+; the nearest is $found}"
  fi
}

is_command() {
  case $1 in
    run | validate | show | debug | why | explain | query | check | lint | compare | gen) ;;
    *) return 1 ;;
  esac
}

# Whether the words ask for help, alone or behind a command.
ask_for_help() {
  local word
  case ${1-} in
    help | --help | -h) return ;;
    run | validate | show | debug | why | explain | query | check | lint | compare | gen | version | install) ;;
    *) return 1 ;;
  esac
  for word in "${@:2}"; do
    case $word in
      --) return 1 ;;
      --help | -h) return ;;
    esac
  done
  return 1
}

blame() {
  [ -n "$wrong" ] || wrong=$1
}

# Whether the word is a number of 64 bits, as the program reads one.
is_number() {
  local number
  [[ $1 =~ ^\+?0*([0-9]+)$ ]] || return 1
  number=${BASH_REMATCH[1]}
  [ ${#number} -ge ${#most_number} ] || return 0
  # shellcheck disable=SC2071 # two of one length are compared as texts
  [ ${#number} -eq ${#most_number} ] && ! [[ $number > $most_number ]]
}

# Blames a value that the option, the direction or the word NUMBER can't have.
judge_value() {
  local LC_ALL=C
  case $1 in
    --workers)
      [[ $2 =~ ^\+?0*([1-9]|[1-5][0-9]|6[0-4])$ ]] || blame "--workers is a number from 1 to 64, and $(printf %q "$2") is none"
      ;;
    --spread)
      [ "$2" = rr ] || [ "$2" = flow ] || blame "--spread is rr or flow, and $(printf %q "$2") is neither"
      ;;
    --expire)
      is_number "$2" && [ "${#2}" -le 12 ] && [ "$((10#${2#+}))" -ge 1 ] && [ "$((10#${2#+}))" -le 4294967295 ] ||
        blame "--expire is from 1 to 4294967295 seconds, and $(printf %q "$2") is none of these"
      ;;
    IF | --on)
      [[ $2 =~ ^[A-Za-z][A-Za-z0-9._-]{0,14}$ ]] || blame "$1 is an interface's name of 1 to 15 bytes, and $(printf %q "$2") is none"
      ;;
    in\|out | --dir)
      [ "$2" = in ] || [ "$2" = out ] || blame "the direction is in or out, and $(printf %q "$2") is neither"
      ;;
    --steps | NUMBER)
      is_number "$2" || blame "$1 is from 0 to $most_number, and $(printf %q "$2") is none of these"
      ;;
  esac
}

# Sets `files` to the words that are neither the command nor an option nor the value of one, `ifaces`, `load`, `write`, `workers`, `spread` and `on` to the
# values of these options, and `wrong` to what makes the words no command, whatever the files hold: the first such thing, or nothing.
read_words() {
  local command=$1 names=(CONF) options=(--ifaces) known name value near given=' ' at
  files=() ifaces='' load='' write='' workers=1 spread=rr on='' wrong=''
  case $command in
    run) names=(CONF SCRIPT) options=("${run_options[@]}") ;;
    why) options=(--all --ifaces) ;;
    explain) names=(CONF IF 'in|out' CLASS) ;;
    query) names=(CONF CLASS) options=(--ifaces --steps) ;;
    check) names=(CONF EXPECTATIONS) options=(--ifaces --steps) ;;
    lint) names=(CONF) options=(--ifaces --steps) ;;
    compare) names=(OLD NEW) options=(--ifaces --steps) ;;
    gen) names=(NUMBER) options=() ;;
  esac
  known=" ${options[*]} "
  shift
  while [ $# -gt 0 ]; do
    case $1 in
      --)
        shift
        files+=("$@")
        break
        ;;
      -?*)
        name=${1%%=*} value=${1#*=}
        if [[ $known != *" $name "* ]]; then
          blame "$command has no option $(printf %q "$name")$(near_options "$name" "${options[@]}")"
        elif [ "$name" = --all ]; then
          [ "$1" = --all ] || blame '--all has no value'
          [[ $given != *' --all '* ]] || blame '--all stands there twice'
          given+='--all '
        elif [ "$1" = "$name" ] && { [ $# -eq 1 ] || [[ $2 == -?* ]]; }; then
          blame "$name has no value behind it${2:+: $(printf %q "$2") is taken for an option}"
        else
          [ "$1" != "$name" ] || { value=$2 && shift; }
          [[ $given != *" $name "* ]] || blame "$name stands there twice"
          given+="$name "
          judge_value "$name" "$value"
          case $name in
            --ifaces) ifaces=$value ;;
            --load) load=$value ;;
            --write) write=$value ;;
            --workers) workers=$value ;;
            --spread) spread=$value ;;
            --on) on=$value ;;
          esac
        fi
        ;;
      *) files+=("$1") ;;
    esac
    shift
  done
  if [ ${#files[@]} -lt ${#names[@]} ]; then
    blame "${names[${#files[@]}]} is missing"
  elif [ ${#files[@]} -gt ${#names[@]} ]; then
    near=
    [ "$command" != run ] || near='; a script names several captures'
    blame "$(printf %q "${files[${#names[@]}]}") is a word too many$near"
  else
    for at in "${!names[@]}"; do
      judge_value "${names[at]}" "${files[at]}"
    done
  fi
  # what stands there and is no file: an interface, a direction, a class
  case $command in
    explain | query) files=("${files[@]:0:1}") ;;
  esac
}

# Whether the words are no command, whatever the files hold.
are_wrong() {
  local files ifaces load write workers spread on wrong
  is_command "${1-}" || return 0
  read_words "$@"
  [ -n "$wrong" ]
}

# The first file that the words of a command name and that can't be read: it isn't there, may not be read, or is a folder.
unread_file() {
  local files ifaces load write workers spread on wrong it
  [ "$1" != gen ] || return 0
  read_words "$@"
  for it in "$ifaces" "${files[@]}" "$load"; do
    if [ -n "$it" ] && { [ ! -r "$it" ] || [ -d "$it" ]; }; then
      printf '%s\n' "$it"
      return
    fi
  done
}

words_of() {
  case $1 in
    run) echo "$run_words" ;;
    why) echo "$why_words" ;;
    explain) echo "$explain_words" ;;
    query) echo "$query_words" ;;
    check) echo "$check_words" ;;
    lint) echo "$lint_words" ;;
    compare) echo "$compare_words" ;;
    gen) echo 'gen NUMBER' ;;
    *) echo "$1 $text_words" ;;
  esac
}

# What stands there for a command: one of NetBSD's program, what other programs call it, a file, an option, or a mistake of spelling.
hint_command() {
  local word near here='' other=''
  word=$(printf %q "$1")
  case ${1,,} in
    start | stop | flush) here='npfctl run CONF SCRIPT says what a configuration does to the packets of captures' ;;
    reload) here='npfctl validate CONF says whether a configuration is accepted; in a script, reload "FILE" puts one in force' ;;
    stats) here='the last line of npfctl run CONF SCRIPT counts what became of the packets' ;;
    list | save) here='npfctl run CONF SCRIPT --save FILE saves the connections that are left' ;;
    load) here='npfctl run CONF SCRIPT --load FILE begins with the connections that --save saved' ;;
    rule | table) here="in a script, lines of ${1,,} change what is in force; npfctl(8), Scripts, has them" ;;
    test | verify | -n | -f | -nf) other='validate says whether a configuration is accepted, and run what becomes of packets' ;;
    replay | simulate | trace | read | -r) other='run says what becomes of the packets of captures' ;;
    print | dump | rules) other='show prints what a configuration means' ;;
    hint | hints) other='why says what is wrong with a configuration' ;;
    ask | which | who) other='query says which rules decide on packets' ;;
    assert | expect) other='check says which expectations a configuration does not meet' ;;
    diff) other='compare says which packets two configurations would treat otherwise' ;;
  esac
  if [ -n "$here" ]; then
    hint "there is no command $word: NetBSD's is for a running kernel, which this program never touches"
    hint "$here"
  elif [ -n "$other" ]; then
    hint "there is no command $word; $other"
  elif [ -f "$1" ]; then
    hint "there is no command $word: a command stands before the files, as in npfctl run CONF SCRIPT"
  elif [[ $1 == -* ]]; then
    hint "there is no command $word: options stand behind the command, as in npfctl run CONF SCRIPT --ifaces FILE"
  else
    near=$(nearest "$1" run validate show debug why explain query check lint compare gen help version install)
    hint "there is no command $word${near:+; the nearest is $near}"
  fi
  hint 'npfctl help has the commands'
}

# What is wrong with the words, and what they have to be; where there are none, the help.
hint_words() {
  local files ifaces load write workers spread on wrong
  if [ $# -eq 0 ]; then
    usage >&2
    return
  fi
  if ! is_command "$1"; then
    hint_command "$1"
    return
  fi
  read_words "$@"
  [ -z "$wrong" ] || hint "$wrong"
  hint "the words are: npfctl $(words_of "$1")"
  if [ "$1" != run ] && [ "$wrong" = 'CONF is missing' ]; then
    hint 'no file stands for it, as /etc/npf.conf does in NetBSD, and no kernel is asked'
  else
    hint 'npfctl help says what each command does'
  fi
}

# The front of boardnet, sourced by the command of the repository and by the installed one: help, version, folders in place
# of manifests, and a loud word where nothing was judged. It changes no status and no byte of the program's output.
#
# The caller sets home (where help.txt and the tools lie), sets program, and has the functions version and ready: ready sees
# to it that the program is there, or for show that it knows where to have it built. It sets is_trial where that is a trial build.

# What the caller asks for before the command: to wait for the proved program; a trial's text, and its status.
waits='' trial='' is_trial=''
# The status of a trial's yes or no, on which nothing rests.
not_proved=75

say() { printf 'boardnet: %s\n' "$*" >&2; }

# Prints the lines of a section of the help text.
section() {
  on=
  while IFS= read -r line; do
    case $line in
      "= $1" | "= $1 "*) on=1 ;;
      "= "*) on= ;;
      *) [ -z "$on" ] || printf '%s\n' "$line" ;;
    esac
  done <"$home/help.txt"
}

# Prints the heads of the commands, each with the line under it.
commands() {
  head=
  while IFS= read -r line; do
    [ -z "$head" ] || printf '  boardnet %s\n      %s\n' "$head" "$line"
    head=
    case $line in "= boardnet" | "= files" | "= status") ;; "= "*) head=${line#= } ;; esac
  done <"$home/help.txt"
}

help() {
  section boardnet
  commands
  printf '  boardnet COMMAND --help | --help | --version\n\n'
  section files
  printf 'Status\n'
  section status
}

# Prints the page of one command, or fails where there is no such command.
help_of() {
  case ${1-} in '' | boardnet | files | status | *' '*) return 1 ;; esac
  head=
  while IFS= read -r line; do
    case $line in "= $1" | "= $1 "*) head=${line#= } ;; esac
  done <"$home/help.txt"
  [ -n "$head" ] || return 1
  printf 'boardnet %s\n\n' "$head"
  section "$1"
  case $head in *MANIFEST* | *REAL*) section files ;; esac
  case $1 in install | package | selftest) ;; *) [ -f "$home/$1" ] || { printf 'Status\n'; section status; } ;; esac
}

# Whether the command's first word is a manifest or a copper file, by its head in the help text.
takes_file() {
  while IFS= read -r line; do
    case $line in "= $1 MANIFEST" | "= $1 MANIFEST "* | "= $1 FILE") return 0 ;; esac
  done <"$home/help.txt"
  return 1
}

# Whether the program takes the text as the name of a file: 1 to 200 printable ASCII characters.
is_name() (
  LC_ALL=C
  case $1 in '' | *[!\ -~]*) return 1 ;; esac
  [ ${#1} -le 200 ]
)

# Sets folder and name to where a manifest lies; folder is empty where it is the current one.
find_manifest() {
  folder='' name=$1
  if [ -d "$1" ]; then
    folder=$1 name=m.json
    # To cd, - alone is the folder before.
    [ "$1" != - ] || folder=./-
    [ -e "$1/m.json" ] || say "$1 has no m.json; \`boardnet manifest $1\` writes one"
  else
    find_file "$1"
  fi
}

# Sets folder and name to where a copper file lies; folder is empty where it is the current one.
find_file() {
  folder='' name=$1
  case $1 in */?*) folder=${1%/*}/ name=${1##*/} ;; esac
}

# Sets report to how REPORT is named from the manifest's folder.
find_report() {
  report=$1
  case $1 in /*) ;; *) report=$PWD/$1 ;; esac
  [ -e "$report" ] || [ ! -e "$folder/$1" ] || say "$1 is looked for in $PWD; the one beside the manifest is $folder/$1"
  beside=$(CDPATH='' cd -P -- "${report%/*}/" 2>/dev/null && pwd -P) || beside=''
  [ "$beside" != "$(CDPATH='' cd -P -- "$folder" && pwd -P)" ] || report=${report##*/}
  is_name "$report" ||
    say "$report is no name of at most 200 printable ASCII characters: copy the report beside the manifest, or go to its folder"
}

# Of a text the lines that tell of test points which cannot contradict one another: none, one alone, or all without net.
few_points() { LC_ALL=C grep -x -e 'points [01]' -e 'names 1' -e 'name 0 N/C'; }

# Sets pointless to what these lines say together.
judge_points() {
  case $1 in
    *'points 0'*) pointless=none ;;
    *'points 1'*) pointless=one ;;
    *'names 1'*'name 0 N/C'*) pointless=unnamed ;;
  esac
}

# Runs the program and passes its output on as it comes; sets status, and pointless where the output tells of such points.
# The program's line waits until all is passed on: where that cannot be written, the line is what the program would say.
pass_on() {
  exec 3>&1
  told=$(
    {
      {
        { "$program" "$@" 2>&4 3>&- 4>&- 5>&- 7>&-; printf '= ended %s\n' $? >&4; } |
          { tee /dev/fd/5 2>/dev/null >&7 7>&-; printf '= passed %s\n' $? >&4; }
      } 4>&6 5>&1 6>&- | few_points | while IFS= read -r line; do printf '= few %s\n' "$line"; done >&6
    } 6>&1 7>&3
  )
  notes='' is_cut='' few='' status=''
  while IFS= read -r line; do
    case $line in
      '= ended '*) status=${line#= ended } ;;
      '= passed 0' | '') ;;
      '= passed '*) is_cut=1 ;;
      '= few '*) few="$few${line#= few }, " ;;
      *) notes="${notes:+$notes
}$line" ;;
    esac
  done <<END
$told
END
  judge_points "$few"
  [ -n "$status" ] || status=70 notes="boardnet: the program's end is not known, so this is no answer on the board"
  [ -z "$is_cut" ] || status=5 notes='boardnet: output cannot be written'
  [ -z "$notes" ] || printf '%s\n' "$notes" >&2
}

# Whether output can be passed on here.
can_pass_on() {
  { : >&1; } 2>/dev/null && [ -e /dev/fd/1 ] && command -v tee >/dev/null 2>&1 && command -v grep >/dev/null 2>&1
}

# Says so where a yes is about no two test points that could contradict one another.
warn_of_nothing() {
  case $pointless,$1 in
    one,*) why="there is one test point alone" ;;
    unnamed,*) why="all test points are without net (N/C)" ;;
    *,x2) why="no copper file of $2 has a net label (TO.N)" ;;
    *,trial) why="the made board has no test point" ;;
    *) why="$2 names a netlist without test points (no 317 and no 327 record)" ;;
  esac
  say "NOTHING WAS JUDGED: $why, so this yes says nothing about the board"
}

# Sets pointless by a report that was audited; a pipe is not given twice.
look_at() {
  if [ ! -f "$1" ]; then pointless=unknown; else judge_points "$(few_points <"$1" 2>/dev/null)"; fi
}

# Runs the program with these words, once, and sets its status. A yes about no test point is known by the text that passes by,
# or the report that was audited.
run() {
  status=0 pointless=''
  case $1 in
    check | x2 | between | trial) if can_pass_on; then pass_on "$@"; else "$program" "$@" || status=$?; pointless=unknown; fi ;;
    *) "$program" "$@" || status=$? ;;
  esac
  case $1,$status in x2,[01]) tell_several_names "$2" ;; esac
  [ "$status" = 0 ] || return 0
  [ "$1" != audit ] || look_at "$3"
  case $pointless in
    '') ;;
    unknown) say "look at the line \`points\` of the text: where it is \`points 0\` or \`points 1\`, nothing was judged" ;;
    *) warn_of_nothing "$1" "$2" ;;
  esac
}

# Says so where a copper file that a manifest names has an object of several nets: `x2` takes the first name alone.
tell_several_names() {
  [ -f "$1" ] && command -v grep >/dev/null 2>&1 || return 0
  grep -o '"[^"]*"' -- "$1" 2>/dev/null | while IFS= read -r name; do
    name=${name#?} name=${name%?}
    if [ -f "$name" ] && LC_ALL=C grep -q '%TO\.N,[^,*%]\{1,\},[^*%]*[^,*%]' -- "$name" 2>/dev/null; then
      say "$name has objects of several nets (TO.N,GND,AGND), of which x2 takes the first name alone; \`boardnet show\` has a point of each"
    fi
  done
}

# Goes to the folder of the files, sees to it that the program is there, and runs it.
go_and_run() {
  if [ $# -ge 2 ] && takes_file "$1"; then
    command=$1
    if [ "$command" = flatten ]; then find_file "$2"; else find_manifest "$2"; fi
    if [ -n "$folder" ] && (CDPATH='' cd -- "$folder") 2>/dev/null; then
      shift 2
      if [ "$command" = audit ] && [ $# = 1 ]; then find_report "$1"; set -- "$report"; fi
      CDPATH='' cd -- "$folder" && set -- "$command" "$name" "$@"
    fi
  fi
  ready "$@"
  if [ -n "$is_trial" ]; then try_out "$@"; else run "$@"; fi
  exit "$status"
}

# Says what an answer is that no proof stands behind.
tell_trial() { say "NOT PROVED YET: a trial build of these sources, with run-time checks and no proof, says: $1. \`boardnet prove\` proves the program"; }

# Sets the status of a trial: a yes or a no of it is none, where the caller did not ask for it.
judge_trial() { [ -n "$trial" ] || case $status in 0 | 1 | 11) status=$not_proved ;; esac; }

# Runs a trial build with these words. Its line is told as what it is; its text goes to where nobody reads it, unless the caller
# asked for it.
try_out() {
  if [ -n "$trial" ] && { : >&1; } 2>/dev/null; then exec 9>&1; else exec 9>/dev/null; fi
  notes=$({ run "$@" >&9 9>&-; exit "$status"; } 2>&1)
  status=$?
  line=
  while IFS= read -r rest; do
    if [ -n "$line" ]; then printf '%s\n' "$rest" >&2; else line=${rest#boardnet: }; tell_trial "${line:-nothing}"; fi
  done <<END
$notes
END
  judge_trial
}

# Whether the command is a tool, which lies beside the help text. That text is not asked: a shell reads it byte by byte.
is_tool() { case ${1-} in manifest | show) [ -f "$home/$1" ] ;; *) return 1 ;; esac; }

# Whether a tool runs the program.
needs_program() { [ "$1" = show ] && [ -z "${BOARDNET-}" ]; }

# Ends where Python, with which a command starts, is not there, too old, or does not start: its own end would look like a judgement.
need_python() {
  command -v python3 >/dev/null 2>&1 || { say "\`boardnet $1\` wants Python 3.8 or later, and there is no python3 on the PATH"; exit 127; }
  python3 -S -c 'import sys; sys.exit(sys.version_info < (3, 8))' </dev/null >/dev/null 2>&1 ||
    { say "\`boardnet $1\` wants Python 3.8 or later, and the python3 on the PATH is older or does not start"; exit 127; }
}

# Runs a tool with Python, which alone wants it; nothing but its own library, so that it starts sooner. What one says by a trial
# build goes to standard error, unless the caller asked for it, and it knows then that its yes or no is none.
tool() {
  need_python "$1"
  tool=$home/$1
  shift
  if [ -n "$is_trial" ]; then
    export BOARDNET_TRIAL="${trial:-unasked}"
    [ -n "$trial" ] || exec >&2
  fi
  exec python3 -S "$tool" "$@"
}

# Runs the program with these words over a board of selftest, and says whether it ended as it must.
tried() {
  wanted=$1 what=$2
  shift 2
  told=$("$program" "$@" 2>&1 >"$scratch/out")
  status=$?
  if [ "$status" = "$wanted" ]; then word=right; else word="WRONG, $wanted is wanted" amiss=1; fi
  printf '%s: status %s, %s (%s)\n' "$what" "$status" "$word" "$told"
}

# Whether what was put is what the board's own page of answers has.
same_as() {
  if cmp -s "$scratch/out" "$1"; then printf 'its report: right, byte for byte\n'; else amiss=1; printf 'its report: WRONG, it is not %s\n' "$1"; fi
}

# Runs the program over a board that agrees and one that does not, and audits a right report and a wrong one.
selftest() {
  ready selftest
  [ -z "$is_trial" ] || [ -n "$trial" ] || exec >&2
  boards=$home/examples amiss=
  [ -d "$boards" ] || boards=${home%/*}/examples
  scratch=$(mktemp -d) || exit 70
  trap 'rm -rf "$scratch"' EXIT
  trap 'exit 130' INT TERM HUP
  version
  CDPATH='' cd -- "$boards/two_layer" || exit 70
  tried 0 'check of a board that agrees' check m.json
  same_as report.txt
  tried 0 'audit of that report' audit m.json report.txt
  CDPATH='' cd -- "$boards/opens_and_shorts" || exit 70
  tried 1 'check of a board with opens and shorts' check m.json
  tried 1 'audit of a report of another board' audit m.json ../two_layer/report.txt
  [ -z "$amiss" ] || { say "selftest: something is wrong with this installation; nothing that it says is to be trusted"; exit 70; }
  if [ -n "$is_trial" ]; then
    tell_trial 'selftest: all as it must be'
    status=0
    judge_trial
    exit "$status"
  fi
  printf 'selftest: all as it must be\n'
  exit 0
}

# Judges the words.
front() {
  while :; do
    case ${1-} in
      --wait) waits=1 ;;
      --trial) trial=1 ;;
      *) break ;;
    esac
    shift
  done
  case ${1-} in
    --help | -h) help; exit 0 ;;
    --version) version; exit 0 ;;
    help) if help_of "${2-}"; then exit 0; fi; help; exit 0 ;;
  esac
  if [ $# = 2 ] && { [ "$2" = --help ] || [ "$2" = -h ]; } && help_of "$1"; then exit 0; fi
  if [ "$#/$1" = 1/selftest ]; then selftest; fi
  if is_tool "${1-}"; then
    if needs_program "$1"; then ready "$@"; fi
    tool "$@"
  fi
  go_and_run "$@"
}

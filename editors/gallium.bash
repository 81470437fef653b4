# Completion of Gallium's commands and files in bash. Read it in ~/.bashrc: `. FOLDER/editors/gallium.bash`.
# It serves `gallium` in any folder, and `./look`; another `look` is a command of many systems, and is left alone.

# _gallium_files PATTERN: the folders, and the files whose names match, that go on from the current word.
_gallium_files() {
  compopt -o filenames 2>/dev/null
  mapfile -t COMPREPLY < <({ compgen -d -- "$word"; compgen -f -X "!$1" -- "$word"; } | sort -u)
}

# _gallium_words WORD..: those of these words that go on from the current one.
_gallium_words() {
  mapfile -t COMPREPLY < <(compgen -W "$*" -- "$word")
}

_gallium() {
  local word=${COMP_WORDS[COMP_CWORD]} command=${COMP_WORDS[1]-}
  COMPREPLY=()
  if [ "$COMP_CWORD" -eq 1 ]; then
    case $1 in
      *look) _gallium_words run compile check replay lossy gen audit chain pcap --program ;;
      *) _gallium_words run compile check replay lossy gen audit chain pcap ;;
    esac
    return
  fi
  case $command:$COMP_CWORD in
    run:2 | compile:2 | check:2 | replay:2 | lossy:2 | audit:2) _gallium_files '*.gal' ;;
    compile:3 | check:3 | replay:5 | lossy:5) _gallium_files '*.toml' ;;
    run:3 | replay:[34] | lossy:[34] | check:4 | audit:[34] | chain:2) _gallium_files '*' ;;
    compile:4) _gallium_words shrink ;;
    replay:6) _gallium_words shrink split ;;
    replay:7) [ "${COMP_WORDS[6]}" != split ] || _gallium_files '*' ;;
    pcap:2) _gallium_words in out ;;
    pcap:3)
      case ${COMP_WORDS[2]} in
        in) _gallium_files '*.pcap' ;;
        out) _gallium_files '*' ;;
      esac
      ;;
    pcap:4) [ "${COMP_WORDS[2]}" != out ] || _gallium_words big little ;;
    pcap:5) [ "${COMP_WORDS[2]}" != out ] || _gallium_words micro nano ;;
  esac
}

complete -F _gallium gallium ./look

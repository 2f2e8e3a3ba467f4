# Completes the words of both programs in bash: the form first, then its settings, and file names where a form reads one.
_dccp_words() {
  local form=${COMP_WORDS[1]} word=${COMP_WORDS[COMP_CWORD]} before=${COMP_WORDS[COMP_CWORD - 1]} settings=
  if [ "$COMP_CWORD" = 1 ]; then
    mapfile -t COMPREPLY < <(compgen -W "$1" -- "$word")
    return
  fi
  # With a readline that parts words at `=`, that is its own word.
  [ "$word" != = ] || word=
  [ "$before" != = ] || before=${COMP_WORDS[COMP_CWORD - 2]}
  case $before in
    --input) mapfile -t COMPREPLY < <(compgen -f -- "$word"); return ;;
    --side) mapfile -t COMPREPLY < <(compgen -W 'server client' -- "$word"); return ;;
    --first | --seeds | --seed | --events | --workers | --buffer | --most | --flow) return ;;
  esac
  case $2:$form in
    dccp:replay) settings='--side --plain --buffer' ;;
    dccp:campaign) settings='--first --seeds --events --workers' ;;
    dccp:listen) settings='--most' ;;
    dccp_bridge:seed) settings='--seed --events' ;;
    dccp_bridge:seeds) settings='--first --seeds --events' ;;
    dccp_bridge:frames) settings='--flow --side' ;;
    dccp_bridge:json) settings='--payload' ;;
    dccp_bridge:capture) settings='--input' ;;
    dccp_bridge:ladder) settings='--flow --input' ;;
    dccp_bridge:windows) settings='--flow' ;;
  esac
  case $2:$form:$word in
    dccp_bridge:capture:[!-]* | dccp_bridge:unwrap:* | dccp_bridge:json:[!-]* | dccp_bridge:frames:[!-]* | dccp_bridge:ladder:[!-]* | \
      dccp_bridge:windows:[!-]*)
      mapfile -t COMPREPLY < <(compgen -f -- "$word") ;;
    *) mapfile -t COMPREPLY < <(compgen -W "$settings" -- "$word") ;;
  esac
}

_dccp() { _dccp_words 'run replay campaign show listen ecn' dccp; }

_dccp_bridge() { _dccp_words 'capture unwrap seed seeds frames json ladder windows --help --version' dccp_bridge; }

complete -o filenames -F _dccp dccp
complete -o filenames -F _dccp_bridge dccp_bridge

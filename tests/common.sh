# shellcheck shell=bash
# What the scripts share, which source it. A script that lacks a command ends with status 77 and says which Debian package has
# it; one whose commands are there but don't work on this machine ends with status 78.
# Nothing is left beside the scripts, and no proxy stands between them and the program.
export PYTHONDONTWRITEBYTECODE=1 no_proxy=127.0.0.1 NO_PROXY=127.0.0.1

# shellcheck disable=SC2034
commands_of_scripts='python3 cc curl chromium chromedriver eslint nginx openssl git dpkg-deb xz zzuf'

package_of() { # COMMAND
    case "$1" in
    cc) echo build-essential ;;
    chromedriver) echo chromium-driver ;;
    dpkg-deb) echo dpkg ;;
    flock | setpriv) echo util-linux ;;
    nginx) echo nginx-light ;;
    xz) echo xz-utils ;;
    *) echo "$1" ;;
    esac
}

needs() { # COMMAND..
    local command missing=() packages=()
    for command in "$@"; do
        command -v "$command" >/dev/null || missing+=("$command") packages+=("$(package_of "$command")")
    done
    if [ ${#missing[@]} -gt 0 ]; then
        echo "$(basename "$0" .sh): this machine has no ${missing[*]} (Debian: apt-get install ${packages[*]})"
        exit 77
    fi
    case " $* " in
    *" python3 "*)
        if ! python3 -c 'import sys; sys.exit(sys.version_info < (3, 8))'; then
            echo "$(basename "$0" .sh): this machine has no Python 3.8 or later, but $(python3 --version 2>&1)"
            exit 77
        fi
        ;;
    esac
}

# Ends the script where Chromium is there but doesn't start on this machine, which is no fault of ours. From here on its HOME is
# this folder, since a user's profile is neither needed nor touched.
starts_chromium() { # FOLDER
    export HOME="$1"
    if ! timeout 60 chromium --headless=new --no-sandbox --disable-gpu --dump-dom about:blank >"$1/said" 2>&1; then
        echo "$(basename "$0" .sh): Chromium is there but doesn't start on this machine: $(tail -n 1 "$1/said" | cut -c1-200)"
        exit 78
    fi
}

# Whether a process listens at a port of 127.0.0.1.
listens() { # PID PORT
    local socket file
    socket="$(awk -v address="$(printf '0100007F:%04X' "$2")" '$2 == address && $4 == "0A" { print $10 }' /proc/net/tcp)"
    [ -n "$socket" ] || return 1
    for file in "/proc/$1/fd/"*; do
        [ "$(readlink "$file")" != "socket:[$socket]" ] || return 0
    done
    return 1
}

# Serves an empty wiki on a port that nobody has, and sets `wiki` to the process and `address` to where it listens. The ports
# are others than those of running.py.
serve_empty() { # PROGRAM JOURNAL
    local port status
    for _ in $(seq 20); do
        port=$((12000 + RANDOM % 8000))
        "$1" serve "127.0.0.1:$port" </dev/null >"$2" 2>/dev/null &
        wiki=$!
        # shellcheck disable=SC2034
        address="127.0.0.1:$port"
        for _ in $(seq 1000); do
            listens "$wiki" "$port" && return
            kill -0 "$wiki" 2>/dev/null || break
            sleep 0.02
        done
        kill "$wiki" 2>/dev/null
        wait "$wiki"
        status=$?
        # Where the port is taken it ends with 5.
        [ "$status" = 5 ] || break
    done
    echo "$(basename "$0" .sh): the program doesn't listen at $address, and ended with status $status"
    exit 1
}

# Ends the script where the replies to the lines of a file, behind the first so many, aren't those of another file. What came is
# kept in the folder `work` of the script.
# shellcheck disable=SC2154
compare_replies() { # PROGRAM LINES REPLIES BEFORE WHAT
    local line wanted got number=0 script
    script="$(basename "$0" .sh)"
    "$1" replay <"$2" >"$work/got" 2>"$work/errors" || { echo "$script: $5: the program ended with status $?: $(cat "$work/errors")"; exit 1; }
    cmp -s <(tail -n "+$(($4 + 1))" "$work/got") "$3" && return
    while IFS= read -r line <&3; do
        number=$((number + 1)) wanted='' got=''
        IFS= read -r got <&5
        [ "$number" -gt "$4" ] || continue
        IFS= read -r wanted <&4
        if [ "$got" != "$wanted" ]; then
            echo "$script: $5: another reply to"
            printf '%s\nexpected\n%s\ncame\n%s\n' "$line" "$wanted" "$got"
            exit 1
        fi
    done 3<"$2" 4<"$3" 5<"$work/got"
    echo "$script: $5: $(wc -l <"$work/got") replies came to $(wc -l <"$2") lines"
    exit 1
}

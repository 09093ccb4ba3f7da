# shellcheck shell=sh
# The one counter of what passed and failed, for the scripts that check: `. tools/count.sh`, from the top of the repository. What is counted and
# said in one place cannot differ from script to script.
passed=0 failed=0

from_nothing() { # COMMAND..
    passed=0 failed=0
    "$@"
}

# A check that passes or fails as a whole. What the command says is shown where it fails.
passes() { # WHAT COMMAND..
    what=$1
    shift
    if said=$("$@" 2>&1); then
        passed=$((passed + 1))
    else
        failed=$((failed + 1))
        [ -z "$said" ] || printf '%s\n' "$said"
        echo "FAILED: $what"
        return 1
    fi
}

# The same, with a line where it passes too.
one() { # WHAT COMMAND..
    passes "$@" && echo "ok: $1"
}

# A command that counts for itself, or a function that counts from nothing by what stands here: the sum of what its lines
# 'P passed[;,] F failed' say, and at least one failure if it ends badly or counts nothing. A line that is a sum and nothing else is not
# shown, since the sum is told here.
counted() { # WHAT COMMAND..
    what=$1
    shift
    said=$(from_nothing "$@" 2>&1)
    status=$?
    [ -z "$said" ] || printf '%s\n' "$said" | grep -vxE '[0-9]+ passed, [0-9]+ failed'
    sums=$(printf '%s\n' "$said" | awk '
        match($0, /[0-9]+ passed[;,] [0-9]+ failed/) {
            split(substr($0, RSTART, RLENGTH), w, " ")
            p += w[1]; f += w[3]
        }
        END { print p + 0, f + 0 }')
    p=${sums% *} f=${sums#* }
    [ "$status" -eq 0 ] || [ "$f" -gt 0 ] || f=1
    [ "$p" -gt 0 ] || [ "$f" -gt 0 ] || f=1
    passed=$((passed + p)) failed=$((failed + f))
    echo "$what: $p passed, $f failed"
}

# Whether a tool is there. The gate (.ci/run) needs it; elsewhere its tests are skipped.
have() { # TOOL WHAT
    command -v "$1" >/dev/null 2>&1 && return
    if [ "${DELAMPUK_GATE:-}" = true ]; then
        passes "$1, which the gate needs, is on this machine" false
    else
        echo "skipped: $2 (no $1 on this machine)"
    fi
    return 1
}

# The last line, and whether all passed.
told() {
    echo "$passed passed, $failed failed"
    [ "$failed" -eq 0 ]
}

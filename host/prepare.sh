# Sourced by the commands of this folder: goes to the workspace, finds or installs cargo, names the target folder.
if [ -d "${ORACLE_SRC:-}" ]; then
    ORACLE_SRC=$(cd "$ORACLE_SRC" && pwd)
    export ORACLE_SRC
fi
cd "$(dirname "${BASH_SOURCE[0]}")"
if ! command -v cargo >/dev/null; then
    if [ "$(id -u)" = 0 ]; then
        apt-get install -y cargo >/dev/null
    else
        echo "host: cargo is not installed; on Debian and Ubuntu: apt-get install cargo" >&2
        exit 1
    fi
fi
export CARGO_TARGET_DIR="$PWD/../target/host"
export CARGO_NET_OFFLINE=true
recorded=recorded/answers.txt

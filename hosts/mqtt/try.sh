#!/usr/bin/env bash
# Five processes and a broker on this machine. A third of all messages is lost; two processes are killed and come back from their files, and
# so is the broker. In the end all print one digest; who-knew-what.svg, in the folder build/ or in the one that is given, shows the way there.
# Wants Debian's mosquitto and python3-paho-mqtt. Takes half a minute.
set -euo pipefail
cd "$(dirname "$0")/../.."
into=$(mkdir -p "${1:-build}" && cd "${1:-build}" && pwd)
[ -e build/libginelm.so ] || c/build.sh build
python=${PYTHON:-/usr/bin/python3}
broker_program=$(PATH=$PATH:/usr/sbin command -v mosquitto)
work=$(mktemp -d)
running=()
finish() {
    for it in "${running[@]}"; do kill -9 "$it" 2>/dev/null || true; done
    wait 2>/dev/null || true
    rm -rf "$work"
}
trap finish EXIT

port=$("$python" -c 'import socket; s = socket.socket(); s.bind(("127.0.0.1", 0)); print(s.getsockname()[1])')
printf 'listener %s 127.0.0.1\nallow_anonymous true\n' "$port" >"$work/broker.conf"
start_broker() {
    "$broker_program" -c "$work/broker.conf" >>"$work/broker.log" 2>&1 &
    broker=$!
    running+=("$broker")
}
# A process of this name, which registers so often, and then takes in what comes for so many seconds.
start() {
    "$python" hosts/mqtt/member.py "$1" "$work/$1.replica" --port "$port" --drop 0.33 --writes "$2" --seconds "$3" >>"$work/$1.log" 2>>"$work/$1.err" &
    pid[$1]=$!
    running+=("$!")
}
stop() {
    kill -9 "$1"
    wait "$1" 2>/dev/null || true
}
declare -A pid

start_broker
for name in 1 2 3 4 5; do start "$name" 40 18; done
sleep 3
stop "${pid[2]}"
sleep 1
start 2 20 16
sleep 2
stop "$broker"
sleep 2
start_broker
stop "${pid[4]}"
sleep 1
start 4 10 14

for name in 1 2 3 4 5; do
    wait "${pid[$name]}" || { cat "$work/$name.err"; exit 1; }
done
cat "$work"/*.err
digests=$(for name in 1 2 3 4 5; do tail -n 1 "$work/$name.log" | cut -d' ' -f3; done)
for name in 1 2 3 4 5; do echo "process $name: $(tail -n 1 "$work/$name.log" | cut -d' ' -f2,3)"; done
"$python" hosts/mqtt/draw.py "$into/who-knew-what.svg" \
    "process 1=$work/1.log" "process 2=$work/2.log" "process 3=$work/3.log" "process 4=$work/4.log" "process 5=$work/5.log"
if [ "$(sort -u <<<"$digests" | wc -l)" != 1 ]; then
    echo "the digests differ"
    exit 1
fi
echo "all five hold the same"

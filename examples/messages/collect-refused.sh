# A client sends octets that are no batch, as soon as somebody listens.
client() { exec 3<>/dev/tcp/127.0.0.1/4051 && printf 'no batch' >&3 && cat <&3; }
(until client; do sleep 0.1; done) >/dev/null 2>&1 &
trap 'kill $! 2>/dev/null' EXIT
"$swid" collect --listen 127.0.0.1:4051 --epoch 7 --workers 1

# A peer sends three octets of a batch, and closes.
python3 - "$swid" <<'END'
import socket, subprocess, sys

with socket.create_server(("127.0.0.1", 4052)) as door:
    ran = subprocess.Popen([sys.argv[1], "follow", "127.0.0.1:4052"])
    peer, _ = door.accept()
    peer.sendall(b"\2\0\0")
    peer.shutdown(socket.SHUT_WR)
    while peer.recv(4096):
        pass
sys.exit(ran.wait())
END

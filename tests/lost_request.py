"""Sends an act to a door and hangs up without reading the answer: PORT BODY."""

import socket, sys
body = sys.argv[2].encode()
link = socket.create_connection(("127.0.0.1", int(sys.argv[1])))
head = f"POST /acts HTTP/1.1\r\nHost: hall\r\nContent-Length: {len(body)}\r\n\r\n"
link.sendall(head.encode() + body)
link.close()

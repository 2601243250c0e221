// pion's TURN client: it sends packets through a relay to a peer that returns them, 16 at a time.
//
//	pion_load udp|tcp SERVER:PORT REALM NAME PASSWORD PEER:PORT PACKETS
//
// Prints how many were sent and how many came back within two seconds of the last.
// Build: GO111MODULE=off GOPATH=/usr/share/gocode go build pion_load.go
package main

import (
	"fmt"
	"net"
	"os"
	"strconv"
	"time"

	"github.com/pion/turn/v2"
)

const window = 16

func must(err error) {
	if err != nil {
		fmt.Fprintln(os.Stderr, "pion:", err)
		os.Exit(1)
	}
}

func connect(network, server string) net.PacketConn {
	if network == "udp" {
		socket, err := net.ListenPacket("udp", "0.0.0.0:0")
		must(err)
		return socket
	}
	stream, err := net.Dial("tcp", server)
	must(err)
	return turn.NewSTUNConn(stream)
}

func main() {
	network, server := os.Args[1], os.Args[2]
	peer, err := net.ResolveUDPAddr("udp", os.Args[6])
	must(err)
	packets, err := strconv.Atoi(os.Args[7])
	must(err)
	client, err := turn.NewClient(&turn.ClientConfig{
		STUNServerAddr: server, TURNServerAddr: server, Conn: connect(network, server),
		Realm: os.Args[3], Username: os.Args[4], Password: os.Args[5],
	})
	must(err)
	must(client.Listen())
	relayed, err := client.Allocate()
	must(err)
	back, buffer := map[string]bool{}, make([]byte, 2048)
	for sent := 0; ; {
		for ; sent < packets && sent-len(back) < window; sent++ {
			_, err = relayed.WriteTo([]byte(fmt.Sprintf("packet %d", sent)), peer)
			must(err)
		}
		must(relayed.SetReadDeadline(time.Now().Add(2 * time.Second)))
		length, _, err := relayed.ReadFrom(buffer)
		if err == nil {
			back[string(buffer[:length])] = true
		}
		if err != nil || len(back) == packets {
			fmt.Printf("%d sent, %d came back\n", sent, len(back))
			relayed.Close()
			return
		}
	}
}

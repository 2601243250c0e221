// pion's TURN server on loopback, with one user of long-term credentials:
//
//	pion_turn HOST REALM NAME PASSWORD    prints `port N`, and serves until it is ended
//
// Build: GO111MODULE=off GOPATH=/usr/share/gocode go build pion_turn.go
package main

import (
	"fmt"
	"net"
	"os"

	"github.com/pion/turn/v2"
)

func must(err error) {
	if err != nil {
		fmt.Fprintln(os.Stderr, "pion:", err)
		os.Exit(1)
	}
}

func main() {
	host, realm, name, password := os.Args[1], os.Args[2], os.Args[3], os.Args[4]
	socket, err := net.ListenPacket("udp", net.JoinHostPort(host, "0"))
	must(err)
	// This version of pion relays IPv4 alone.
	relay := &turn.RelayAddressGeneratorStatic{
		RelayAddress: net.ParseIP("127.0.0.1"), Address: "127.0.0.1",
	}
	_, err = turn.NewServer(turn.ServerConfig{
		Realm: realm,
		AuthHandler: func(user, of string, from net.Addr) ([]byte, bool) {
			return turn.GenerateAuthKey(name, of, password), user == name
		},
		PacketConnConfigs: []turn.PacketConnConfig{
			{PacketConn: socket, RelayAddressGenerator: relay},
		},
	})
	must(err)
	fmt.Println("port", socket.LocalAddr().(*net.UDPAddr).Port)
	select {}
}

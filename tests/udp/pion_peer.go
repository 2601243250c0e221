// pion's STUN messages as a peer of the programs in examples/c, with long-term credentials:
//
//	pion_peer client HOST PORT NAME PASSWORD    asks, answers the challenge, and judges the answer
//	pion_peer server REALM NAME PASSWORD        prints `port N`, challenges, judges and answers
//	                                            until it is ended
//
// The client prints the address and has status 0 where pion validated the signed answer. The server
// prints `validated` for each request that pion validated.
// Build: GO111MODULE=off GOPATH=/usr/share/gocode go build pion_peer.go
package main

import (
	"fmt"
	"net"
	"os"
	"time"

	"github.com/pion/stun"
)

func must(err error) {
	if err != nil {
		fmt.Fprintln(os.Stderr, "pion:", err)
		os.Exit(1)
	}
}

// ask sends a request and reads the message that comes back.
func ask(server net.Conn, request *stun.Message) *stun.Message {
	_, err := server.Write(request.Raw)
	must(err)
	must(server.SetReadDeadline(time.Now().Add(5 * time.Second)))
	bytes := make([]byte, 2048)
	length, err := server.Read(bytes)
	must(err)
	answer := &stun.Message{Raw: bytes[:length]}
	must(answer.Decode())
	return answer
}

func client(host, port, name, password string) {
	server, err := net.Dial("udp", net.JoinHostPort(host, port))
	must(err)
	challenge := ask(server, stun.MustBuild(stun.TransactionID, stun.BindingRequest, stun.Fingerprint))
	var realm stun.Realm
	var nonce stun.Nonce
	must(realm.GetFrom(challenge))
	must(nonce.GetFrom(challenge))
	integrity := stun.NewLongTermIntegrity(name, realm.String(), password)
	request := stun.MustBuild(stun.TransactionID, stun.BindingRequest, stun.NewUsername(name),
		realm, nonce, integrity, stun.Fingerprint)
	answer := ask(server, request)
	must(integrity.Check(answer))
	must(stun.Fingerprint.Check(answer))
	var seen stun.XORMappedAddress
	must(seen.GetFrom(answer))
	fmt.Println(seen, "signed")
}

func serve(realm, name, password string) {
	socket, err := net.ListenPacket("udp", "127.0.0.1:0")
	must(err)
	fmt.Println("port", socket.LocalAddr().(*net.UDPAddr).Port)
	integrity := stun.NewLongTermIntegrity(name, realm, password)
	for {
		bytes := make([]byte, 2048)
		length, from, err := socket.ReadFrom(bytes)
		must(err)
		request := &stun.Message{Raw: bytes[:length]}
		if request.Decode() != nil {
			continue
		}
		var answer *stun.Message
		if err := integrity.Check(request); err != nil {
			fmt.Println("refused,", err)
			answer = stun.MustBuild(stun.NewTransactionIDSetter(request.TransactionID),
				stun.BindingError, stun.CodeUnauthorized, stun.NewRealm(realm),
				stun.NewNonce("a nonce of pion"))
		} else {
			fmt.Println("validated")
			peer := from.(*net.UDPAddr)
			seen := &stun.XORMappedAddress{IP: peer.IP, Port: peer.Port}
			answer = stun.MustBuild(stun.NewTransactionIDSetter(request.TransactionID),
				stun.BindingSuccess, seen, integrity, stun.Fingerprint)
		}
		_, err = socket.WriteTo(answer.Raw, from)
		must(err)
	}
}

func main() {
	switch {
	case len(os.Args) == 6 && os.Args[1] == "client":
		client(os.Args[2], os.Args[3], os.Args[4], os.Args[5])
	case len(os.Args) == 5 && os.Args[1] == "server":
		serve(os.Args[2], os.Args[3], os.Args[4])
	default:
		os.Exit(2)
	}
}

// pion/stun as a subject: levels 0 and 1. A line in, a
// line out. It claims RFC 5389.
package main

import (
	"bufio"
	"encoding/hex"
	"fmt"
	"net"
	"os"
	"strconv"
	"strings"

	"github.com/pion/stun"
)

var classes = []string{"request", "indication", "success", "error"}

func plain(word string) []byte {
	b, _ := hex.DecodeString(strings.TrimPrefix(word, "-"))
	return b
}

func shown(b []byte) string {
	if len(b) == 0 {
		return "-"
	}
	return hex.EncodeToString(b)
}

func number(word string) int {
	n, _ := strconv.ParseUint(word, 0, 64)
	return int(n)
}

func decode(word string) (*stun.Message, error) {
	m := stun.New()
	return m, stun.Decode(plain(word), m)
}

func text(host net.IP, port int) string {
	if host.To4() == nil || len(host) == 16 && strings.Contains(host.String(), ":") {
		return fmt.Sprintf("[%s]:%d", host, port)
	}
	return fmt.Sprintf("%s:%d", host, port)
}

// The types of attributes that pion has getters for.
func attribute(m *stun.Message, t stun.AttrType) (string, error) {
	switch t {
	case stun.AttrErrorCode:
		var e stun.ErrorCodeAttribute
		err := e.GetFrom(m)
		return fmt.Sprintf("%d:%s", e.Code, shown(e.Reason)), err
	case stun.AttrXORMappedAddress, stun.AttrXORPeerAddress, stun.AttrXORRelayedAddress:
		var a stun.XORMappedAddress
		err := a.GetFromAs(m, t)
		return text(a.IP, a.Port), err
	case stun.AttrMappedAddress, stun.AttrAlternateServer:
		var a stun.MappedAddress
		err := a.GetFromAs(m, t)
		return text(a.IP, a.Port), err
	case stun.AttrUnknownAttributes:
		var u stun.UnknownAttributes
		err := u.GetFrom(m)
		words := []string{}
		for _, one := range u {
			words = append(words, fmt.Sprintf("0x%04x", one.Value()))
		}
		return strings.Join(words, ","), err
	case stun.AttrUsername, stun.AttrRealm, stun.AttrNonce, stun.AttrSoftware,
		stun.AttrMessageIntegrity, stun.AttrFingerprint:
		b, err := m.Get(t)
		return shown(b), err
	}
	return "lacks", nil
}

func add(m *stun.Message, t stun.AttrType, word string) (string, error) {
	part := strings.SplitN(word, ":", 2)
	switch t {
	case stun.AttrErrorCode:
		e := stun.ErrorCodeAttribute{Code: stun.ErrorCode(number(part[0])), Reason: plain(part[1])}
		return written(m, e)
	case stun.AttrXORMappedAddress, stun.AttrMappedAddress, stun.AttrAlternateServer:
		host, port, err := net.SplitHostPort(word)
		if err != nil {
			return "", err
		}
		if t == stun.AttrXORMappedAddress {
			return written(m, &stun.XORMappedAddress{IP: net.ParseIP(host), Port: number(port)})
		}
		if t == stun.AttrAlternateServer {
			return written(m, &stun.AlternateServer{IP: net.ParseIP(host), Port: number(port)})
		}
		return written(m, &stun.MappedAddress{IP: net.ParseIP(host), Port: number(port)})
	case stun.AttrUnknownAttributes:
		u := stun.UnknownAttributes{}
		for _, one := range strings.Split(word, ",") {
			u = append(u, stun.AttrType(number(one)))
		}
		return written(m, u)
	case stun.AttrUsername:
		return written(m, stun.Username(plain(word)))
	case stun.AttrRealm:
		return written(m, stun.Realm(plain(word)))
	case stun.AttrNonce:
		return written(m, stun.Nonce(plain(word)))
	case stun.AttrSoftware:
		return written(m, stun.Software(plain(word)))
	}
	return "lacks", nil
}

func written(m *stun.Message, setter stun.Setter) (string, error) {
	err := setter.AddTo(m)
	return shown(m.Raw), err
}

func begun(words []string) string {
	m := stun.New()
	copy(m.TransactionID[:], plain(words[2][2:]))
	for class, name := range classes {
		if name == words[0] {
			m.Type = stun.NewType(stun.Method(number(words[1])), stun.MessageClass(class))
		}
	}
	m.WriteHeader()
	return shown(m.Raw)
}

// Calls on one message, which is the last word of read, attributes, attribute, verify, fingerprint,
// and the first one of add, sign and add-fingerprint.
func ofMessage(call string, words []string) (string, error) {
	place := len(words) - 1
	if call == "add" || call == "sign" {
		place = 0
	}
	m, err := decode(words[place])
	if err != nil {
		return "", err
	}
	switch call {
	case "read":
		return fmt.Sprintf("%s 0x%03x 0x%x", classes[m.Type.Class], uint16(m.Type.Method),
			m.TransactionID[:]), nil
	case "attributes":
		found, at := []string{}, 20
		for _, a := range m.Attributes {
			found = append(found, fmt.Sprintf("0x%04x@%d:%d", uint16(a.Type), at, a.Length))
			at += 4 + (int(a.Length)+3)/4*4
		}
		if len(found) == 0 {
			return "none", nil
		}
		return strings.Join(found, " "), nil
	case "attribute":
		came, err := attribute(m, stun.AttrType(number(words[0])))
		return noneOf(came, err)
	case "verify":
		return noneOf("sha1", stun.MessageIntegrity(plain(words[0])).Check(m))
	case "fingerprint":
		came, err := noneOf("valid", stun.Fingerprint.Check(m))
		if err != nil {
			return "invalid", nil
		}
		return came, nil
	case "add":
		return add(m, stun.AttrType(number(words[1])), words[2])
	case "sign":
		if words[1] != "sha1" {
			return "lacks", nil
		}
		return written(m, stun.MessageIntegrity(plain(words[2])))
	}
	return written(m, stun.Fingerprint)
}

func noneOf(came string, err error) (string, error) {
	if err == stun.ErrAttributeNotFound {
		return "none", nil
	}
	return came, err
}

func answer(call string, words []string) (string, error) {
	switch call {
	case "reset":
		return "done", nil
	case "claims":
		return "rfc5389 raw-texts", nil
	case "begin":
		return begun(words), nil
	case "key":
		if words[0] != "sha1" {
			return "lacks", nil
		}
		return shown(stun.NewLongTermIntegrity(string(plain(words[1])), string(plain(words[2])),
			string(plain(words[3])))), nil
	case "read", "attributes", "attribute", "verify", "fingerprint", "add", "sign",
		"add-fingerprint":
		return ofMessage(call, words)
	}
	return "lacks", nil
}

func main() {
	in, out := bufio.NewScanner(os.Stdin), bufio.NewWriter(os.Stdout)
	in.Buffer(make([]byte, 1<<20), 1<<20)
	for in.Scan() {
		func() {
			defer func() {
				if r := recover(); r != nil {
					fmt.Fprintf(out, "raised %v\n", r)
				}
			}()
			words := strings.Fields(in.Text())
			came, err := answer(words[0], words[1:])
			if err != nil {
				came = "refused"
			}
			fmt.Fprintln(out, came)
		}()
		out.Flush()
	}
}

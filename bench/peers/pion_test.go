// The rows of pion (golang-github-pion-stun-dev): prints "NAME NANOSECONDS" of each, processor time,
// the least of 15 batches of 5,000 calls.
package peers

import (
	"encoding/hex"
	"errors"
	"fmt"
	"net"
	"syscall"
	"testing"

	"github.com/pion/stun"
)

const sample = "000100582112a442b7e7a701bc34d686fa87dfae802200105354554e207465737420636c69656e74" +
	"002400046e0001ff80290008932ff9b151263b36000600096576746a3a68367659202020" +
	"000800149aeaa70cbfd8cb56781ef2b5b2d3f249c1b571a280280004e57a3bcf"

func processorTime() int64 {
	var used syscall.Rusage
	syscall.Getrusage(0, &used)
	return used.Utime.Nano() + used.Stime.Nano()
}

func least(name string, call func() error) {
	best := int64(1 << 60)
	for batch := 0; batch < 15; batch++ {
		begun := processorTime()
		for count := 0; count < 5000; count++ {
			if err := call(); err != nil {
				panic(name + ": " + err.Error())
			}
		}
		if taken := processorTime() - begun; taken < best {
			best = taken
		}
	}
	fmt.Printf("%s %.1f\n", name, float64(best)/5000)
}

func TestRows(t *testing.T) {
	raw, _ := hex.DecodeString(sample)
	key := stun.NewShortTermIntegrity("VOkJxbRl1RmTxUk/WvJxBt")
	message := &stun.Message{Raw: append([]byte{}, raw...)}
	least("parse", message.Decode)
	least("verify", func() error {
		if err := message.Decode(); err != nil {
			return err
		}
		return key.Check(message)
	})
	out := stun.New()
	least("build", func() error {
		return out.Build(stun.BindingRequest, stun.NewUsername("evtj:h6vY"), key)
	})
	least("fingerprint", func() error { return stun.Fingerprint.Check(message) })
	priority := stun.RawAttribute{Type: stun.AttrPriority, Value: []byte{0x6e, 0, 1, 0xff}}
	tie := stun.RawAttribute{Type: stun.AttrICEControlling, Value: []byte{0, 0, 0, 0, 0, 0, 0, 7}}
	candidate := stun.RawAttribute{Type: stun.AttrUseCandidate}
	write := func(to *stun.Message) error {
		return to.Build(stun.BindingRequest, stun.NewUsername("h6vY:evtj"), priority, candidate,
			tie, key, stun.Fingerprint)
	}
	least("check_written", func() error { return write(out) })
	check := stun.New()
	if err := write(check); err != nil {
		t.Fatal(err)
	}
	from := &stun.XORMappedAddress{IP: net.IPv4(192, 0, 2, 1), Port: 32853}
	received := &stun.Message{Raw: append([]byte{}, check.Raw...)}
	least("check_answered", func() error { return answer(received, out, key, from) })
}

func answer(check, out *stun.Message, key stun.MessageIntegrity, from *stun.XORMappedAddress) error {
	var name stun.Username
	if err := check.Decode(); err != nil {
		return err
	}
	if err := stun.Fingerprint.Check(check); err != nil {
		return err
	}
	if err := name.GetFrom(check); err != nil || name.String() != "h6vY:evtj" {
		return errors.New("another name")
	}
	if !check.Contains(stun.AttrPriority) {
		return errors.New("no priority")
	}
	if err := key.Check(check); err != nil {
		return err
	}
	return out.Build(stun.NewTransactionIDSetter(check.TransactionID), stun.BindingSuccess, from,
		key, stun.Fingerprint)
}

// A TURN server by pion's library, with long-term credentials, over UDP alone.
//
//	pion LISTEN RELAY_LOW RELAY_HIGH REALM USER PASSWORD [OTHER_USER OTHER_PASSWORD]
package main

import (
	"log"
	"net"
	"os"
	"os/signal"
	"strconv"
	"syscall"

	"github.com/pion/turn/v2"
)

func port(text string) uint16 {
	number, err := strconv.ParseUint(text, 10, 16)
	if err != nil {
		log.Fatal(err)
	}
	return uint16(number)
}

func main() {
	args := os.Args[1:]
	listener, err := net.ListenPacket("udp4", args[0])
	if err != nil {
		log.Fatal(err)
	}
	address := listener.LocalAddr().(*net.UDPAddr).IP
	keys := map[string][]byte{}
	for users := args[4:]; len(users) >= 2; users = users[2:] {
		keys[users[0]] = turn.GenerateAuthKey(users[0], args[3], users[1])
	}
	server, err := turn.NewServer(turn.ServerConfig{
		Realm: args[3],
		AuthHandler: func(user, realm string, from net.Addr) ([]byte, bool) {
			key, ok := keys[user]
			return key, ok
		},
		PacketConnConfigs: []turn.PacketConnConfig{{
			PacketConn: listener,
			RelayAddressGenerator: &turn.RelayAddressGeneratorPortRange{
				RelayAddress: address, Address: address.String(), MinPort: port(args[1]), MaxPort: port(args[2]),
			},
		}},
	})
	if err != nil {
		log.Fatal(err)
	}
	end := make(chan os.Signal, 1)
	signal.Notify(end, syscall.SIGTERM, syscall.SIGINT)
	<-end
	if err := server.Close(); err != nil {
		log.Fatal(err)
	}
}

#!/bin/bash
# wireshark_filter.sh: the filter of docs/VERDICTS.md shows as many rows as the service has datagrams, of each interface of the captures in
# examples/, and passes over what isn't the service's: other ports of its address, TCP, and ICMP errors that quote its datagrams.
# It needs tshark, and passes where there is none.
if ! command -v tshark > /dev/null; then
    echo "wireshark_filter: no tshark, not tried"
    exit 0
fi
cd "$(dirname "$0")" || exit 1
scratch=$(mktemp -d)
trap 'rm -rf "$scratch"' EXIT
passed=0
failed=0

filter=$(sed -n '/^```wireshark$/,/^```$/p' ../docs/VERDICTS.md | sed '1d;$d')
case $filter in
    udp*'frame.interface_id == 0') ;;
    *) echo "failed: no filter in docs/VERDICTS.md"; exit 1 ;;
esac

compare() { # NAME CAPTURE INTERFACE ROWS
    rows=$(tshark -r "$2" -Y "${filter%0}$3" 2> "$scratch/told" | wc -l)
    if [ "$rows" = "$4" ]; then
        passed=$((passed + 1))
    else
        failed=$((failed + 1))
        echo "failed: $1, interface $3: $rows rows for $4 datagrams; $(head -c 200 "$scratch/told")"
    fi
}

for folder in ../examples/*/; do
    [ -f "$folder/sightings" ] || continue
    while read -r interface count; do
        file=cap.pcapng
        if [ -f "$folder/client.pcapng" ]; then
            file=client.pcapng
            if [ "$interface" -ge 64 ]; then file=peer.pcapng; fi
        fi
        compare "$(basename "$folder")" "$folder/$file" $((interface % 64)) "$count"
    done < "$folder/sightings"
done

# One datagram of the service, its quotation in an ICMP error, a DNS query of the host, and a TCP segment to its port.
python3 - "$scratch/strange.pcapng" << 'END'
import struct, sys
from refusals import CLIENT, DATAGRAM, SERVER, capture, frame, packet

def ethernet(protocol, source, to, body):
    ip = struct.pack(">BBHHHBBH", 0x45, 0, 20 + len(body), 0, 0, 64, protocol, 0) + source + to
    return bytes(12) + b"\x08\x00" + ip + body

icmp = ethernet(1, SERVER, CLIENT, struct.pack(">BBHI", 3, 3, 0, 0) + DATAGRAM[14:])
dns = frame(SERVER, 40000, CLIENT, 53)
tcp = ethernet(6, CLIENT, SERVER, struct.pack(">HHIIBBHHH", 40000, 3478, 1, 0, 0x50, 2, 1024, 0, 0))
with open(sys.argv[1], "wb") as file:
    file.write(capture(*(packet(one) for one in (icmp, dns, tcp, DATAGRAM))))
END
compare "a quotation, DNS and TCP" "$scratch/strange.pcapng" 0 1

echo "wireshark_filter: $passed passed, $failed failed"
[ "$failed" = 0 ]

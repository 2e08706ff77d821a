// Prints 65,536 client addresses, a line each, whose pairs with the listen address 192.0.2.1:3478 meet in the kit's `IndexSet` where its
// `RandomState` has the seed of which all bytes are SEED: the 13 bits are the same at which a table of so many pairs begins to look for one.
//
//     gcc -O3 -march=native -o colliding_clients bench/colliding_clients.c && ./colliding_clients SEED
//
// It tries some 540 million addresses. bench/attacks.py builds and runs it.
#include <stdint.h>
#include <stdio.h>
#include <stdlib.h>

enum { CLIENTS = 65536, GROUPS = 8192, PORTS = 64 };

static uint64_t turned(uint64_t word, int by) {
    return word << by | word >> (64 - by);
}

struct sip {
    uint64_t v0, v1, v2, v3;
};

static inline void sip_round(struct sip *s) {
    s->v0 += s->v1;
    s->v2 += s->v3;
    s->v1 = turned(s->v1, 13) ^ s->v0;
    s->v3 = turned(s->v3, 16) ^ s->v2;
    s->v0 = turned(s->v0, 32);
    s->v2 += s->v1;
    s->v0 += s->v3;
    s->v1 = turned(s->v1, 17) ^ s->v2;
    s->v3 = turned(s->v3, 21) ^ s->v0;
    s->v2 = turned(s->v2, 32);
}

static inline void sip_word(struct sip *s, uint64_t word) {
    s->v3 ^= word;
    sip_round(s);
    s->v0 ^= word;
}

// The hash of the table: SipHash-1-3 of both addresses, each its four bytes and its port, the lowest byte first; the halves of it joined.
static inline uint32_t hash_of(uint64_t key, uint64_t ip, uint64_t port) {
    const uint64_t listen_ip = 0xC0000201, listen_port = 3478;
    struct sip s = {key ^ 0x736f6d6570736575, key ^ 0x646f72616e646f6d, key ^ 0x6c7967656e657261, key ^ 0x7465646279746573};
    sip_word(&s, ip | port << 32 | listen_ip << 48);
    sip_word(&s, listen_ip >> 16 | listen_port << 16 | (uint64_t)12 << 56);
    s.v2 ^= 0xFF;
    sip_round(&s);
    sip_round(&s);
    sip_round(&s);
    uint64_t hash = s.v0 ^ s.v1 ^ s.v2 ^ s.v3;
    return (uint32_t)(hash ^ hash >> 32);
}

int main(int count, char **words) {
    uint64_t key = (count > 1 ? strtoul(words[1], NULL, 10) & 255 : 0) * 0x0101010101010101;
    int found = 0;
    // 10.0.0.0/8, some ports of each.
    for (uint32_t ip = 0x0A000000; found < CLIENTS; ip++) {
        for (uint32_t port = 40000; port < 40000 + PORTS && found < CLIENTS; port++) {
            if (hash_of(key, ip, port) % GROUPS == 0) {
                printf("10.%u.%u.%u %u\n", ip >> 16 & 255, ip >> 8 & 255, ip & 255, port);
                found++;
            }
        }
    }
    return 0;
}

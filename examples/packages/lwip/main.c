/* lwIP at both ends of its loopback interface: UDP, an ICMP echo, and a TCP server that sends back what it gets, with the
   case of its letters changed. Time goes by turns, so that each run does the same. */
#include "package.h"
#include "lwip/icmp.h"
#include "lwip/inet_chksum.h"
#include "lwip/init.h"
#include "lwip/ip4.h"
#include "lwip/netif.h"
#include "lwip/raw.h"
#include "lwip/stats.h"
#include "lwip/tcp.h"
#include "lwip/timeouts.h"
#include "lwip/udp.h"
#include <string.h>

enum { ECHO_PORT = 7, HTTP_PORT = 80, SENDER_PORT = 4000, TO_SEND = 20000 };

static u32_t now;
static unsigned served, sent, received, done;
static char answer[TO_SEND];

u32_t sys_now(void) {
    return now;
}

static void turns(int n) {
    while (n--) {
        netif_poll_all();
        now += 10;
        sys_check_timeouts();
    }
}

static void on_datagram(void *argument, struct udp_pcb *at, struct pbuf *p, const ip_addr_t *from, u16_t port) {
    printf("udp: %u bytes from port %u: %.*s", p->tot_len, port, p->len, (char *)p->payload);
    pbuf_free(p);
}

static void send_datagram(const ip_addr_t *to) {
    static const char text[] = "hello lwIP!\n";
    struct udp_pcb *receiver = udp_new(), *sender = udp_new();
    udp_bind(receiver, to, ECHO_PORT);
    udp_recv(receiver, on_datagram, 0);
    udp_bind(sender, to, SENDER_PORT);
    struct pbuf *p = pbuf_alloc(PBUF_TRANSPORT, sizeof text - 1, PBUF_RAM);
    memcpy(p->payload, text, sizeof text - 1);
    printf("udp: sent %d\n", udp_sendto(sender, p, to, ECHO_PORT));
    pbuf_free(p);
    turns(3);
}

/* The request comes by here too, and goes on to lwIP, which answers it. */
static u8_t on_ping(void *argument, struct raw_pcb *at, struct pbuf *p, const ip_addr_t *from) {
    const struct icmp_echo_hdr *icmp = (struct icmp_echo_hdr *)((char *)p->payload + IP_HLEN);
    printf("icmp: type %u, %u bytes\n", icmp->type, p->tot_len);
    if (icmp->type != ICMP_ER)
        return 0;
    pbuf_free(p);
    return 1;
}

static void ping(const ip_addr_t *to) {
    struct raw_pcb *at = raw_new(IP_PROTO_ICMP);
    raw_recv(at, on_ping, 0);
    raw_bind(at, to);
    struct pbuf *p = pbuf_alloc(PBUF_IP, 40, PBUF_RAM);
    struct icmp_echo_hdr *icmp = p->payload;
    memset(icmp, 0x5a, 40);
    ICMPH_TYPE_SET(icmp, ICMP_ECHO);
    ICMPH_CODE_SET(icmp, 0);
    icmp->chksum = 0;
    icmp->id = 0x1234;
    icmp->seqno = lwip_htons(1);
    icmp->chksum = inet_chksum(icmp, 40);
    printf("icmp: checksum %04x, sent %d\n", icmp->chksum, raw_sendto(at, p, to));
    pbuf_free(p);
    turns(3);
}

static err_t server_receives(void *argument, struct tcp_pcb *at, struct pbuf *p, err_t error) {
    if (!p) {
        printf("server: closed after %u bytes\n", served);
        return tcp_close(at);
    }
    for (struct pbuf *part = p; part; part = part->next) {
        char *bytes = part->payload;
        for (int i = 0; i < part->len; i++)
            bytes[i] ^= 'a' ^ 'A';
        tcp_write(at, bytes, part->len, TCP_WRITE_FLAG_COPY);
        served += part->len;
    }
    tcp_recved(at, p->tot_len);
    tcp_output(at);
    pbuf_free(p);
    return ERR_OK;
}

static err_t server_accepts(void *argument, struct tcp_pcb *at, err_t error) {
    printf("server: a client at %s\n", ip4addr_ntoa(ip_2_ip4(&at->remote_ip)));
    tcp_recv(at, server_receives);
    return ERR_OK;
}

/* As much as the send buffer takes. */
static void send_more(struct tcp_pcb *at) {
    char block[1000];
    while (sent < TO_SEND) {
        unsigned n = LWIP_MIN(LWIP_MIN(sizeof block, tcp_sndbuf(at)), TO_SEND - sent);
        for (unsigned i = 0; i < n; i++)
            block[i] = 'A' + (sent + i) % 23;
        if (n == 0 || tcp_write(at, block, n, TCP_WRITE_FLAG_COPY) != ERR_OK)
            break;
        sent += n;
    }
    tcp_output(at);
}

static err_t client_receives(void *argument, struct tcp_pcb *at, struct pbuf *p, err_t error) {
    if (!p)
        return ERR_OK;
    received += pbuf_copy_partial(p, answer + received, TO_SEND - received, 0);
    tcp_recved(at, p->tot_len);
    pbuf_free(p);
    if (received == TO_SEND) {
        printf("client: all %u bytes are back, sum %08x\n", received, sum_of(answer, received));
        done = 1;
        return tcp_close(at);
    }
    return ERR_OK;
}

static err_t client_sent(void *argument, struct tcp_pcb *at, u16_t n) {
    send_more(at);
    return ERR_OK;
}

static err_t client_connects(void *argument, struct tcp_pcb *at, err_t error) {
    printf("client: connected\n");
    tcp_recv(at, client_receives);
    tcp_sent(at, client_sent);
    send_more(at);
    return ERR_OK;
}

static void talk(const ip_addr_t *to) {
    struct tcp_pcb *server = tcp_new(), *client = tcp_new();
    printf("server: bound %d\n", tcp_bind(server, to, HTTP_PORT));
    server = tcp_listen(server);
    tcp_accept(server, server_accepts);
    printf("client: connects %d\n", tcp_connect(client, to, HTTP_PORT, client_connects));
    for (int i = 0; i < 400 && !done; i++)
        turns(1);
    turns(20);
}

int main(void) {
    ip_addr_t loopback;
    IP_ADDR4(&loopback, 127, 0, 0, 1);
    lwip_init();
    send_datagram(&loopback);
    ping(&loopback);
    talk(&loopback);
    printf("tcp: %u segments sent, %u received, %u dropped; %u ms\n", (unsigned)lwip_stats.tcp.xmit, (unsigned)lwip_stats.tcp.recv,
           (unsigned)lwip_stats.tcp.drop, (unsigned)now);
    return 0;
}

/* A client and a server of TLS 1.2, whose records are carried from one to the other. The seeds are constants, so that each run
   does the same; what is sent over the wire is compared by a sum. */
#include "package.h"
#include "bearssl.h"
#include "chain-ec.h"
#include "key-ec.h"
#include <stdio.h>
#include <string.h>

static br_ssl_client_context client;
static br_ssl_server_context server;
static unsigned char client_buffer[BR_SSL_BUFSIZE_BIDI], server_buffer[BR_SSL_BUFSIZE_BIDI];
static unsigned pieces;
static uint32_t wire;

/* One suite, and of each algorithm the implementation for processors of 32 bits. */
static void profile(br_ssl_engine_context *engine) {
    static const uint16_t suites[] = {BR_TLS_ECDHE_ECDSA_WITH_CHACHA20_POLY1305_SHA256};
    br_ssl_engine_set_versions(engine, BR_TLS12, BR_TLS12);
    br_ssl_engine_set_suites(engine, suites, 1);
    br_ssl_engine_set_ec(engine, &br_ec_all_m15);
    br_ssl_engine_set_hash(engine, br_sha256_ID, &br_sha256_vtable);
    br_ssl_engine_set_prf_sha256(engine, &br_tls12_sha256_prf);
    br_ssl_engine_set_chapol(engine, &br_sslrec_in_chapol_vtable, &br_sslrec_out_chapol_vtable);
    br_ssl_engine_set_chacha20(engine, br_chacha20_ct_run);
    br_ssl_engine_set_poly1305(engine, br_poly1305_ctmul32_run);
}

/* The client knows the server's key: it looks at no certificate's date. */
static void start(void) {
    static const char seeds[2][24] = {"client seed of this test", "server seed of this test"};
    static unsigned char key_bytes[BR_EC_KBUF_PUB_MAX_SIZE];
    static br_x509_knownkey_context known;
    br_ec_public_key key;
    printf("public key of %u bytes\n", (unsigned)br_ec_compute_pub(&br_ec_all_m15, &key, key_bytes, &EC));
    br_ssl_client_zero(&client);
    profile(&client.eng);
    br_ssl_engine_set_ecdsa(&client.eng, br_ecdsa_i15_vrfy_asn1);
    br_x509_knownkey_init_ec(&known, &key, BR_KEYTYPE_KEYX | BR_KEYTYPE_SIGN);
    br_ssl_engine_set_x509(&client.eng, &known.vtable);
    br_ssl_engine_set_buffer(&client.eng, client_buffer, sizeof client_buffer, 1);
    br_ssl_engine_inject_entropy(&client.eng, seeds[0], sizeof seeds[0]);
    br_ssl_server_zero(&server);
    profile(&server.eng);
    br_ssl_server_set_single_ec(&server, CHAIN, CHAIN_LEN, &EC, BR_KEYTYPE_SIGN, BR_KEYTYPE_EC, &br_ec_all_m15, br_ecdsa_i15_sign_asn1);
    br_ssl_engine_set_buffer(&server.eng, server_buffer, sizeof server_buffer, 1);
    br_ssl_engine_inject_entropy(&server.eng, seeds[1], sizeof seeds[1]);
    printf("client reset %d, ", br_ssl_client_reset(&client, "localhost", 0));
    printf("server reset %d\n", br_ssl_server_reset(&server));
}

/* Carries what one end has to send, as far as the other takes it, and says whether there was any. */
static int carry(br_ssl_engine_context *from, br_ssl_engine_context *to) {
    size_t n, room;
    if (!(br_ssl_engine_current_state(from) & BR_SSL_SENDREC) || !(br_ssl_engine_current_state(to) & BR_SSL_RECVREC))
        return 0;
    const unsigned char *bytes = br_ssl_engine_sendrec_buf(from, &n);
    unsigned char *at = br_ssl_engine_recvrec_buf(to, &room);
    if (n > room)
        n = room;
    memcpy(at, bytes, n);
    wire = wire * 31 + sum_of(bytes, n);
    pieces++;
    br_ssl_engine_sendrec_ack(from, n);
    br_ssl_engine_recvrec_ack(to, n);
    return 1;
}

static void say(br_ssl_engine_context *engine, const char *text) {
    size_t room, n = strlen(text);
    memcpy(br_ssl_engine_sendapp_buf(engine, &room), text, n);
    br_ssl_engine_sendapp_ack(engine, n);
    br_ssl_engine_flush(engine, 0);
}

static void hear(br_ssl_engine_context *engine, const char *who) {
    size_t n;
    const char *text = (const char *)br_ssl_engine_recvapp_buf(engine, &n);
    printf("%s got %u bytes: %.*s", who, (unsigned)n, (int)n, text);
    br_ssl_engine_recvapp_ack(engine, n);
}

int main(void) {
    int asked = 0, moved = 1;
    start();
    while (moved) {
        moved = carry(&client.eng, &server.eng) | carry(&server.eng, &client.eng);
        if (!asked && (br_ssl_engine_current_state(&client.eng) & BR_SSL_SENDAPP)) {
            printf("handshake done: version %04x, suite %04x, curve %d\n", br_ssl_engine_get_version(&client.eng),
                   client.eng.session.cipher_suite, br_ssl_engine_get_ecdhe_curve(&client.eng));
            say(&client.eng, "GET / HTTP/1.0\n");
            asked = moved = 1;
        }
        if (br_ssl_engine_current_state(&server.eng) & BR_SSL_RECVAPP) {
            hear(&server.eng, "server");
            say(&server.eng, "200 OK over TLS\n");
            moved = 1;
        }
        if (br_ssl_engine_current_state(&client.eng) & BR_SSL_RECVAPP) {
            hear(&client.eng, "client");
            br_ssl_engine_close(&client.eng);
            moved = 1;
        }
    }
    printf("errors %d %d, %u pieces, wire %08x\n", br_ssl_engine_last_error(&client.eng), br_ssl_engine_last_error(&server.eng), pieces, wire);
    return 0;
}

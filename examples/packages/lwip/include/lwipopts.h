/* lwIP without a system below it: one thread, which polls, and the loopback interface. */
#define NO_SYS 1
#define SYS_LIGHTWEIGHT_PROT 0
#define LWIP_NETCONN 0
#define LWIP_SOCKET 0
#define LWIP_RAW 1
#define LWIP_HAVE_LOOPIF 1
#define LWIP_NETIF_LOOPBACK 1
#define LWIP_STATS 1
#define MEM_SIZE 65536
#define TCP_MSS 1460
#define TCP_SND_BUF (4 * TCP_MSS)

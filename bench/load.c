/* Sends jobs as the word `load` of beside/bench does, where that isn't built: `cc -O2 -pthread -o load bench/load.c`, and then
   `load load PORT CONNECTIONS JOBS OCTETS`, or CLIENT=load for the scripts here. A connection a job, its control file first. */
#include <arpa/inet.h>
#include <netinet/tcp.h>
#include <pthread.h>
#include <stdio.h>
#include <stdlib.h>
#include <string.h>
#include <sys/socket.h>
#include <time.h>
#include <unistd.h>

static int port, clients;
static long jobs, octets, taken;
static char *file, line[64];
static pthread_mutex_t lock = PTHREAD_MUTEX_INITIALIZER;

static double now(void) {
    struct timespec t;
    clock_gettime(CLOCK_MONOTONIC, &t);
    return t.tv_sec + t.tv_nsec / 1e9;
}

/* Sends a part, and reads its acknowledgement. */
static int tell(int s, const char *part, long length) {
    char answer;
    while (length > 0) {
        long sent = send(s, part, length, MSG_NOSIGNAL);
        if (sent <= 0) return 0;
        part += sent;
        length -= sent;
    }
    return recv(s, &answer, 1, 0) == 1 && answer == 0;
}

static int send_job(void) {
    static const char control[] = "Hh1\nPann\nfdfA001h1\n";
    struct sockaddr_in a = {.sin_family = AF_INET, .sin_port = htons(port), .sin_addr.s_addr = htonl(INADDR_LOOPBACK)};
    int one = 1, s = socket(AF_INET, SOCK_STREAM, 0);
    setsockopt(s, IPPROTO_TCP, TCP_NODELAY, &one, sizeof one);
    int good = !connect(s, (void *)&a, sizeof a) && tell(s, "\2lp\n", 4) && tell(s, "\00219 cfA001h1\n", 13) && tell(s, control, sizeof control)
               && tell(s, line, strlen(line)) && tell(s, file, octets + 1);
    close(s);
    return good;
}

static void *send_share(void *index) {
    long share = jobs / clients + ((long)index < jobs % clients), mine = 0;
    for (long n = 0; n < share; n++) mine += send_job();
    pthread_mutex_lock(&lock);
    taken += mine;
    pthread_mutex_unlock(&lock);
    return 0;
}

int main(int n, char **words) {
    if (n != 6 || strcmp(words[1], "load")) return 2;
    port = atoi(words[2]), clients = atoi(words[3]), jobs = atol(words[4]), octets = atol(words[5]);
    if (clients < 1 || clients > 1024) return 2;
    file = malloc(octets + 1);
    memset(file, 'x', octets);
    file[octets] = 0;
    snprintf(line, sizeof line, "\003%ld dfA001h1\n", octets);
    pthread_t threads[1024];
    double start = now();
    for (long it = 0; it < clients; it++) pthread_create(&threads[it], 0, send_share, (void *)it);
    for (int it = 0; it < clients; it++) pthread_join(threads[it], 0);
    double took = now() - start;
    printf("%ld jobs of %ld octets, %d at once, %ld taken: %.0f jobs a second, %.0f MB/s\n", jobs, octets, clients, taken, taken / took,
           taken * octets / 1e6 / took);
    return 0;
}

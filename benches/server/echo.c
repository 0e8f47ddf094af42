/* A plain server over a Unix socket, to compare with: it sends each line back, by one thread for each connection.
   usage: echo SOCKET CONNECTIONS */
#include <pthread.h>
#include <stdio.h>
#include <stdlib.h>
#include <string.h>
#include <sys/socket.h>
#include <sys/un.h>
#include <unistd.h>

/* Sends back whatever comes, as soon as it ends a line. */
static void *serve(void *given) {
    int client = (int)(long)given;
    char held[65536];
    size_t length = 0;
    for (;;) {
        ssize_t got = read(client, held + length, sizeof held - length);
        if (got <= 0)
            break;
        length += (size_t)got;
        if (held[length - 1] != '\n' && length < sizeof held)
            continue;
        if (write(client, held, length) != (ssize_t)length)
            break;
        length = 0;
    }
    close(client);
    return NULL;
}

int main(int count, char **words) {
    if (count != 3)
        return 2;
    int connections = atoi(words[2]);
    struct sockaddr_un at = {.sun_family = AF_UNIX};
    strncpy(at.sun_path, words[1], sizeof at.sun_path - 1);
    int listener = socket(AF_UNIX, SOCK_STREAM, 0);
    if (bind(listener, (struct sockaddr *)&at, sizeof at) != 0 || listen(listener, 128) != 0)
        return 3;
    puts("listening");
    fflush(stdout);
    pthread_t *threads = calloc((size_t)connections, sizeof *threads);
    for (int it = 0; it < connections; it++)
        pthread_create(&threads[it], NULL, serve, (void *)(long)accept(listener, NULL, NULL));
    for (int it = 0; it < connections; it++)
        pthread_join(threads[it], NULL);
    unlink(words[1]);
    return 0;
}

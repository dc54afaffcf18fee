/* Prints the routing table of a router, as `ospfd table ROOT < FILE` does.
 *
 *     cc -Ibindings/c bindings/c/example.c -o example out/libospf.so
 *     ./example FILE ROOT
 */
#include <arpa/inet.h>
#include <stdio.h>
#include <stdlib.h>

#include "ospf.h"

/* The bytes of a file; their memory is the caller's. */
static uint8_t *read_file(const char *name, size_t *size) {
    FILE *file = fopen(name, "rb");
    uint8_t *bytes = NULL;
    size_t room = 0, count;
    *size = 0;
    if (!file)
        return NULL;
    do {
        room = 2 * room + 4096;
        uint8_t *more = realloc(bytes, room);
        if (!more)
            break;
        bytes = more;
        count = fread(bytes + *size, 1, room - *size, file);
        *size += count;
    } while (*size == room);
    fclose(file);
    return bytes;
}

int main(int count, char **words) {
    struct in_addr root;
    struct ospf_answer answer;
    size_t size, room_size = 16;
    if (count != 3 || !inet_aton(words[2], &root)) {
        fprintf(stderr, "usage: example FILE ROOT\n");
        return OSPF_WORDS;
    }
    uint8_t *lsas = read_file(words[1], &size);
    if (!lsas) {
        fprintf(stderr, "%s: not read\n", words[1]);
        return OSPF_STREAM;
    }
    uint32_t no_address = 0;
    uint8_t *room = malloc(room_size);
    while (room) {
        ospf_table(lsas, size, ntohl(root.s_addr), &no_address, 0, room, room_size, &answer);
        if (answer.text + answer.warnings <= room_size)
            break;
        /* Too little room: the sizes say how much the call needs. */
        room_size = answer.text + answer.warnings;
        free(room);
        room = malloc(room_size);
    }
    if (!room)
        return OSPF_MEMORY;
    fwrite(room, 1, answer.text, stdout);
    fwrite(room + answer.text, 1, answer.warnings, stderr);
    free(room);
    free(lsas);
    return answer.status;
}

/* The words of the command line. */
#include "tap.h"

#include <arpa/inet.h>
#include <errno.h>
#include <getopt.h>
#include <stdarg.h>
#include <stdlib.h>
#include <string.h>

static const char help[] =
    "Usage: tap --tap NAME --addr ADDR[/LENGTH] [OPTION]..\n"
    "       tap --tun NAME --addr ADDR[/LENGTH] [OPTION]..\n"
    "\n"
    "Gives a TAP or TUN device to one host of the stack, and serves on it TCP and UDP echo (port 7) and TCP discard (9).\n"
    "\n"
    "The host:\n"
    "  --tap NAME                 the device, as `ip tuntap add NAME mode tap` makes it; where there is none, one for this run\n"
    "  --tun NAME                 in its place a TUN device (mode tun), which has IPv4 datagrams without Ethernet: all addresses are at one hop,\n"
    "                             whose MAC this program tells; a capture has the Ethernet headers\n"
    "  --addr ADDR[/LENGTH]       its address, and the length of the link's prefix (24)\n"
    "  --gateway ADDR             where all goes that is not for the link (nowhere); with --tun any address will do\n"
    "  --mac MAC                  its MAC (02:00 and the four octets of the address)\n"
    "  --no-scale                 no window scale option: a connection holds 65,535 octets each way at most\n"
    "  --buffer N                 octets that a connection holds each way, 2,048 to 1,048,576 (1,048,576)\n"
    "  --entries N                sockets and connections that the host has at most, those among them that still end, up to 16,384 (64)\n"
    "  --recovery WORD            how losses are repaired: `plain`, by RFC 5681 alone, with timeouts of a second at least; `newreno`, with ten segments\n"
    "                             and no slow start threshold at first, and timeouts of 200 ms at least; or `selective`, as `newreno` where the\n"
    "                             peer takes no selective acknowledgements, else by what is reported of octets kept ahead of a gap (selective)\n"
    "\n"
    "What it does, in place of the services:\n"
    "  --connect ADDR PORT        connects there: standard input goes to the peer, what comes of it to standard output\n"
    "  --forward PORT ADDR:PORT   joins each connection that it accepts on PORT to a socket of the system to ADDR:PORT (up to 4 times)\n"
    "\n"
    "With the services:\n"
    "  --source N                 serves N octets on port 19 too: 0 to 250, and again\n"
    "\n"
    "For trials, of frames that come in, that go out, or both:\n"
    "  --lose [in:|out:]N         every N-th is lost\n"
    "  --drop [in:|out:]N         one of N is lost, at random, and the same ones each time\n"
    "  --repeat [in:|out:]N       every N-th comes twice\n"
    "  --delay [in:|out:]MS       each is late by so many milliseconds\n"
    "  --pcap FILE                writes what crosses the device as a capture for tcpdump and Wireshark\n"
    "  --log FILE                 writes the socket calls that open, end or move octets, a line each, for tools/check-capture; the capture is then of\n"
    "                             what the host is given and gives, whatever is lost, late or twice on its way\n"
    "\n"
    "Others:\n"
    "  --openings N               takes at most N connections a second; a SYN beyond them is passed over, and comes again\n"
    "  --idle SECONDS             an accepted connection on which nothing moves for so long is reset (300)\n"
    "  --patience SECONDS         --connect ends where the peer is silent for so long (60)\n"
    "  --stats SECONDS            prints, every so many seconds, what was counted of the host, and how each connection stands\n"
    "  --verbose                  tells of each connection, and at the end how many frames came, went and were dropped\n"
    "  --help                     this text\n"
    "\n"
    "It ends by SIGINT or SIGTERM, and --connect once both sides are closed. Status 0; 1 where something failed; 2 where it can't be asked for so.\n";

/* The largest numbers that a config takes of these (host.h). */
enum { BUFFER_MOST = 1048576, ENTRIES_MOST = 16384 };

static void usage_fault(const char *form, ...)
{
    va_list words;
    va_start(words, form);
    fputs("tap: ", stderr);
    vfprintf(stderr, form, words);
    fputs("; tap --help tells how\n", stderr);
    va_end(words);
    exit(2);
}

static uint64_t read_number(const char *name, const char *word, uint64_t least, uint64_t most)
{
    char *end = NULL;
    errno = 0;
    const unsigned long long number = strtoull(word, &end, 10);
    if (*word < '0' || *word > '9' || *end != '\0' || errno != 0 || number < least || number > most) {
        usage_fault("%s wants a number from %llu to %llu, not '%s'", name, (unsigned long long)least, (unsigned long long)most, word);
    }
    return number;
}

static uint32_t read_addr(const char *name, const char *word)
{
    struct in_addr addr;
    if (inet_pton(AF_INET, word, &addr) != 1) {
        usage_fault("%s wants an address like 10.0.0.1, not '%s'", name, word);
    }
    return ntohl(addr.s_addr);
}

/* The part of a word before the last of a sign, and what is behind it: NULL where it isn't there. */
static char *split(char part[64], const char *word, char sign)
{
    const char *behind = strrchr(word, sign);
    const size_t len = behind == NULL ? strlen(word) : (size_t)(behind - word);
    if (len > 63) {
        usage_fault("'%s' is too long", word);
    }
    memcpy(part, word, len);
    part[len] = '\0';
    return behind == NULL ? NULL : part + len + 1;
}

static void read_own(struct options *options, const char *word)
{
    char addr[64];
    const bool has_length = split(addr, word, '/') != NULL;
    options->addr = read_addr("--addr", addr);
    options->length = has_length ? (uint8_t)read_number("--addr", strrchr(word, '/') + 1, 0, 32) : 24;
}

static void read_mac(struct options *options, const char *word)
{
    unsigned octets[6];
    char rest;
    if (strlen(word) != 17 ||
        sscanf(word, "%2x:%2x:%2x:%2x:%2x:%2x%c", &octets[0], &octets[1], &octets[2], &octets[3], &octets[4], &octets[5], &rest) != 6) {
        usage_fault("--mac wants one like 02:00:00:00:00:01, not '%s'", word);
    }
    for (int i = 0; i < 6; i++) {
        options->mac[i] = (uint8_t)octets[i];
    }
    options->has_mac = true;
}

static void read_recovery(struct options *options, const char *word)
{
    static const char *const words[] = {[HOST_RECOVERY_PLAIN] = "plain", [HOST_RECOVERY_NEW_RENO] = "newreno", [HOST_RECOVERY_SELECTIVE] = "selective"};

    for (uint8_t recovery = HOST_RECOVERY_PLAIN; recovery <= HOST_RECOVERY_SELECTIVE; recovery++) {
        if (strcmp(word, words[recovery]) == 0) {
            options->recovery = recovery;
            return;
        }
    }
    usage_fault("--recovery wants plain, newreno or selective, not '%s'", word);
}

/* A word like 11, in:11 or out:11: which sides it is for, and the number. */
static void read_sided(const char *name, const char *word, uint64_t least, uint64_t *in, uint64_t *out)
{
    const bool in_only = strncmp(word, "in:", 3) == 0, out_only = strncmp(word, "out:", 4) == 0;
    const uint64_t number = read_number(name, word + (in_only ? 3 : out_only ? 4 : 0), least, 1000000000);
    if (!out_only) {
        *in = number;
    }
    if (!in_only) {
        *out = number;
    }
}

static uint16_t read_port(const char *name, const char *word)
{
    return (uint16_t)read_number(name, word, 1, 65535);
}

static void read_forward(struct options *options, const char *port, const char *to)
{
    char addr[64];
    if (options->forward_count == FORWARDS) {
        usage_fault("at most %d times --forward", FORWARDS);
    }
    if (split(addr, to, ':') == NULL) {
        usage_fault("--forward wants PORT ADDR:PORT, not '%s'", to);
    }
    struct forward *forward = &options->forwards[options->forward_count++];
    forward->port = read_port("--forward", port);
    forward->to.addr = read_addr("--forward", addr);
    forward->to.port = read_port("--forward", strrchr(to, ':') + 1);
}

enum { TAP = 1, TUN, ADDR, GATEWAY, MAC, NO_SCALE, BUFFER, ENTRIES, RECOVERY, CONNECT, FORWARD, SOURCE, LOSE, DROP, REPEAT, DELAY, PCAP, OPENINGS, IDLE, PATIENCE, STATS, LOG, VERBOSE, HELP };

static const struct option words[] = {
    {"tap", required_argument, NULL, TAP},           {"tun", required_argument, NULL, TUN},
    {"addr", required_argument, NULL, ADDR},         {"gateway", required_argument, NULL, GATEWAY},
    {"mac", required_argument, NULL, MAC},           {"no-scale", no_argument, NULL, NO_SCALE},
    {"buffer", required_argument, NULL, BUFFER},     {"entries", required_argument, NULL, ENTRIES},
    {"recovery", required_argument, NULL, RECOVERY},
    {"connect", required_argument, NULL, CONNECT},   {"forward", required_argument, NULL, FORWARD},
    {"source", required_argument, NULL, SOURCE},     {"lose", required_argument, NULL, LOSE},
    {"drop", required_argument, NULL, DROP},         {"repeat", required_argument, NULL, REPEAT},
    {"delay", required_argument, NULL, DELAY},       {"pcap", required_argument, NULL, PCAP},     {"idle", required_argument, NULL, IDLE},
    {"patience", required_argument, NULL, PATIENCE}, {"verbose", no_argument, NULL, VERBOSE},     {"help", no_argument, NULL, HELP},
    {"openings", required_argument, NULL, OPENINGS}, {"stats", required_argument, NULL, STATS},
    {"log", required_argument, NULL, LOG},
    {NULL, 0, NULL, 0},
};

static void print_help(void)
{
    const bool printed = fputs(help, stdout) != EOF && fflush(stdout) == 0;
    exit(printed ? 0 : 1);
}

/* The second word of an option that has two. */
static const char *second(const char *name, int argc, char **argv)
{
    if (optind >= argc) {
        usage_fault("%s wants two words", name);
    }
    return argv[optind++];
}

static void read_trial(struct options *options, int which)
{
    switch (which) {
    case LOSE:
        read_sided("--lose", optarg, 1, &options->in.lose, &options->out.lose);
        break;
    case DROP:
        read_sided("--drop", optarg, 1, &options->in.drop, &options->out.drop);
        break;
    case REPEAT:
        read_sided("--repeat", optarg, 1, &options->in.repeat, &options->out.repeat);
        break;
    case DELAY:
        read_sided("--delay", optarg, 0, &options->in.delay, &options->out.delay);
        break;
    case PCAP:
        options->capture = optarg;
        break;
    case LOG:
        options->log = optarg;
        break;
    case SOURCE:
        options->source = read_number("--source", optarg, 1, 1000000000000);
        break;
    case OPENINGS:
        options->openings = read_number("--openings", optarg, 1, 1000000000);
        break;
    case IDLE:
        options->idle = 1000 * read_number("--idle", optarg, 1, 1000000000);
        break;
    case PATIENCE:
        options->patience = 1000 * read_number("--patience", optarg, 1, 1000000000);
        break;
    case STATS:
        options->stats = 1000 * read_number("--stats", optarg, 1, 1000000000);
        break;
    }
}

static void read_one(struct options *options, int which, int argc, char **argv)
{
    switch (which) {
    case TAP:
        options->tap = optarg;
        break;
    case TUN:
        options->tun = optarg;
        break;
    case ADDR:
        read_own(options, optarg);
        break;
    case GATEWAY:
        options->gateway = read_addr("--gateway", optarg);
        break;
    case MAC:
        read_mac(options, optarg);
        break;
    case NO_SCALE:
        options->no_scale = true;
        break;
    case BUFFER:
        options->buffer = (uint32_t)read_number("--buffer", optarg, 2048, BUFFER_MOST);
        break;
    case ENTRIES:
        options->entries = (uint32_t)read_number("--entries", optarg, 1, ENTRIES_MOST);
        break;
    case RECOVERY:
        read_recovery(options, optarg);
        break;
    case CONNECT:
        options->connects = true;
        options->peer.addr = read_addr("--connect", optarg);
        options->peer.port = read_port("--connect", second("--connect", argc, argv));
        break;
    case FORWARD: {
        const char *port = optarg;
        read_forward(options, port, second("--forward", argc, argv));
        break;
    }
    case VERBOSE:
        options->verbose = true;
        break;
    case HELP:
        print_help();
        break;
    default:
        read_trial(options, which);
    }
}

/* What getopt found no option in, or an option without its word. */
static void word_fault(int which, char **argv)
{
    if (which == ':') {
        usage_fault("%s wants a word", argv[optind - 1]);
    }
    if (optopt > HELP) {
        usage_fault("no such option: '-%c'", optopt);
    }
    usage_fault("no such option: '%s'", argv[optind - 1]);
}

/* How many sockets of the host this program has beside connections: those of the services, or one for each --forward. */
static uint32_t own_sockets(const struct options *options)
{
    if (options->connects) {
        return 0;
    }
    return options->forward_count != 0 ? (uint32_t)options->forward_count : options->source != 0 ? 4 : 3;
}

static void complete(struct options *options)
{
    if (options->tap != NULL && options->tun != NULL) {
        usage_fault("--tap and --tun exclude each other");
    }
    options->device = options->tun == NULL ? options->tap : options->tun;
    if (options->device == NULL || options->addr == 0) {
        usage_fault("--tap or --tun, and --addr are wanted");
    }
    if (options->connects && options->forward_count != 0) {
        usage_fault("--connect and --forward exclude each other");
    }
    if (options->log != NULL && options->capture == NULL) {
        usage_fault("--log goes with --pcap alone");
    }
    if (options->source != 0 && (options->connects || options->forward_count != 0)) {
        usage_fault("--source goes with the services alone");
    }
    if (options->entries <= own_sockets(options)) {
        usage_fault("--entries wants more than %u, which tap itself needs, not %u", (unsigned)own_sockets(options), (unsigned)options->entries);
    }
    if (!options->has_mac) {
        const uint32_t addr = options->addr;
        const uint8_t mac[6] = {2, 0, (uint8_t)(addr >> 24), (uint8_t)(addr >> 16), (uint8_t)(addr >> 8), (uint8_t)addr};
        memcpy(options->mac, mac, sizeof mac);
    }
}

void options_read(struct options *options, int argc, char **argv)
{
    int which;
    *options = (struct options){
        .idle = 300000, .patience = 60000, .recovery = HOST_RECOVERY_SELECTIVE, .entries = HOST_ENTRIES, .buffer = BUFFER_MOST};
    opterr = 0;
    while ((which = getopt_long(argc, argv, "+:", words, NULL)) != -1) {
        if (which == '?' || which == ':') {
            word_fault(which, argv);
        }
        read_one(options, which, argc, argv);
    }
    if (optind < argc) {
        usage_fault("no such option: '%s'", argv[optind]);
    }
    complete(options);
}

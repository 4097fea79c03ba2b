/* race TEST [-s SEED] [-n ROUNDS] -w FOLDER [-l FOLDER] [-c CHANGE] -- WORDS..
 *
 * WORDS start the program; CHANGE is the script; the folders are for boards and for logs. Status 1 where something disagrees. */
#include "race.h"
#include <signal.h>
#include <stdlib.h>
#include <string.h>
#include <unistd.h>

int main(int argc, char **argv)
{
    int n = 1;
    if (argc < 2) return 2;
    const char *test = argv[1];
    for (int o; (o = getopt(argc - 1, argv + 1, "s:n:w:l:c:")) != -1;) {
        if (o == 's') seed = strtoull(optarg, NULL, 10);
        else if (o == 'n') n = atoi(optarg);
        else if (o == 'w') snprintf(work, sizeof work, "%s", optarg);
        else if (o == 'l') snprintf(logs, sizeof logs, "%s", optarg);
        else if (o == 'c') snprintf(change_script, sizeof change_script, "%s", optarg);
        else return 2;
    }
    launch = argv + 1 + optind;
    if (!*launch || !*work) return 2;
    if (!*logs) strcpy(logs, work);
    signal(SIGPIPE, SIG_IGN);
    seed_with(seed);
    if (strcmp(test, "rounds") == 0) rounds(n);
    else if (strcmp(test, "mixed") == 0) mixed(n);
    else if (strcmp(test, "story") == 0) story(n);
    else if (strcmp(test, "killed") == 0) killed();
    else if (strcmp(test, "third") == 0) third(n);
    else if (strcmp(test, "disk") == 0) disk();
    else if (strcmp(test, "times") == 0) times(n);
    else return 2;
    return counts.disagreements > 0 ? 1 : 0;
}

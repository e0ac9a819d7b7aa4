// Sets and tells what files have beside their modes, for the cases on rights. It needs no package of tools.
//     attributes FILE              prints the name of each extended attribute of the file, a line each
//     attributes FILE NAME TEXT    gives the file an attribute
//     attributes FILE shield       gives the file an access control list: its owner and user 12345 may read and write it,
//                                  its group may not; the list's mask is what the mode shows instead of the group
// Ends with 1 and the reason on standard error where the file system has no such thing.
#include <stdint.h>
#include <stdio.h>
#include <string.h>
#include <sys/xattr.h>

// An entry of a list, as linux/posix_acl_xattr.h has it. All numbers are little-endian, as those of the machines tested on.
struct entry {
    uint16_t tag, rights;
    uint32_t id;
};

static int shield(const char *file) {
    enum { OWNER = 1, USER = 2, GROUP = 4, MASK = 16, OTHERS = 32 };
    struct {
        uint32_t version;
        struct entry entries[5];
    } list = {2, {{OWNER, 6, ~0u}, {USER, 6, 12345}, {GROUP, 0, ~0u}, {MASK, 6, ~0u}, {OTHERS, 0, ~0u}}};
    return setxattr(file, "system.posix_acl_access", &list, sizeof list, 0);
}

static int tell(const char *file) {
    char names[4096];
    ssize_t length = listxattr(file, names, sizeof names);
    for (ssize_t at = 0; at < length; at += strlen(names + at) + 1) {
        puts(names + at);
    }
    return length < 0;
}

int main(int count, char **words) {
    int failed = 1;
    if (count == 2) {
        failed = tell(words[1]);
    } else if (count == 3 && strcmp(words[2], "shield") == 0) {
        failed = shield(words[1]);
    } else if (count == 4) {
        failed = setxattr(words[1], words[2], words[3], strlen(words[3]), 0);
    }
    if (failed) {
        perror(words[0]);
    }
    return failed != 0;
}

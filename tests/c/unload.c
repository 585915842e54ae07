/* Loads and unloads the shared library again and again, and forks after that. A fork must not call functions of an unloaded library. The
   last line printed is `N passed, M failed`.

   usage: unload LIBRARY */
#include "checks.h"

#include <dlfcn.h>
#include <string.h>
#include <sys/wait.h>
#include <unistd.h>

enum { TURNS = 100 };

/* Returns the address of a function, as a pointer to a function. */
#define FIND(function, library, name)                       \
    do {                                                    \
        void *address = dlsym(library, name);               \
        memcpy(&function, &address, sizeof function);       \
        CHECK(address != NULL);                             \
    } while (0)

/* Forks, and returns whether the child ended as it should. */
static bool is_forked(void)
{
    int status = -1;
    pid_t child = fork();
    if (child == 0)
        _exit(7);
    return child > 0 && waitpid(child, &status, 0) == child && WIFEXITED(status) && WEXITSTATUS(status) == 7;
}

int main(int argc, char **argv)
{
    for (int turn = 0; argc > 1 && turn < TURNS; turn++) {
        void *library = dlopen(argv[1], RTLD_NOW | RTLD_LOCAL);
        if (!library) {
            printf("%s\n", dlerror());
            return 1;
        }
        bool (*open)(moc_store *);
        moc_result (*full)(moc_store *);
        void (*close)(moc_store *);
        moc_store store;
        FIND(open, library, "moc_store_open");
        FIND(full, library, "moc_full");
        FIND(close, library, "moc_store_close");
        CHECK(open(&store) && full(&store).code == MOC_OK && is_forked());
        close(&store);
        CHECK(store.at == NULL && dlclose(library) == 0);
        CHECK(dlopen(argv[1], RTLD_NOW | RTLD_NOLOAD) == NULL && is_forked());
    }
    return report();
}

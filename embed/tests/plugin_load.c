/* Loads a host that is a shared object, lets it serve, and unloads it, a few times. It has nothing
 * of the library itself.
 *
 * usage: plugin-load OBJECT */
#include <dlfcn.h>
#include <stdint.h>
#include <stdio.h>
#include <string.h>

/* What the object's function of this name answers, or 0 where something fails. */
static uint32_t answered(const char *file, const char *name)
{
    uint32_t (*function)(void) = NULL, answer = 0;
    void *object = dlopen(file, RTLD_NOW | RTLD_LOCAL);
    void *at = object ? dlsym(object, name) : NULL;
    memcpy(&function, &at, sizeof function);
    if (function)
        answer = function();
    else
        fprintf(stderr, "plugin: %s\n", dlerror());
    return object && dlclose(object) == 0 ? answer : 0;
}

int main(int count, char **words)
{
    if (count != 2)
        return 2;
    for (int k = 0; k < 3; k++)
        if (answered(words[1], "plugin_serves") != 0xABCDEF)
            return 1;
    puts("plugin: a host in a shared object serves");
    return 0;
}

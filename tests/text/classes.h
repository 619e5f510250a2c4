/* Names of one class, as a parse takes them where it has fewer places than there are relations. */
#ifndef CLASSES_H
#define CLASSES_H

#include <string.h>

/* A parse has so many places for names, and takes them in so many classes; the longest name here has so many bytes. */
enum { PLACES = 4385, CLASSES = 16, CLASS_CHAINS = 32, CLASS_NAME = 4 };

/* The class of a name: its chain's. */
static inline unsigned class_of(const char *name)
{
    unsigned chain = 0;

    for (; *name != '\0'; name++)
        chain = (chain * 31 + (unsigned char)*name) % 512;
    return chain / CLASS_CHAINS;
}

/* The next name in the order of bytes, a prefix first; behind the last one comes the first. */
static inline void next_name(char *name)
{
    /* in order; with these bytes more than 6,000 names are of each class */
    static const char more[] = "0248ACIKM_efgjln";
    size_t length = strlen(name);

    if (length < CLASS_NAME) {
        strcpy(name + length, "0");
        return;
    }
    while (length > 1 && name[length - 1] == more[sizeof more - 2])
        length--;
    name[length] = '\0';
    if (length > 1)
        name[length - 1] = strchr(more, name[length - 1])[1];
    else
        name[0] = (char)(name[0] == 'z' ? 'a' : name[0] + 1);
}

static inline void next_of_class(char *name, unsigned class)
{
    do
        next_name(name);
    while (class_of(name) != class);
}

#endif

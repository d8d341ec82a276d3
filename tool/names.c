// Names as they are typed, NAME.TYP or USER:NAME.TYP, and as they are shown.
#include "tool.h"

#include <ctype.h>
#include <stdio.h>
#include <stdlib.h>
#include <string.h>

enum { CALLED = 8, KIND = 3, USER_MOST = 15, ANY = '?' };

uint8_t user_of(const char *typed)
{
    size_t digits = strspn(typed, "0123456789");
    unsigned long user = digits > 0 && digits < 4 && typed[digits] == '\0' ? strtoul(typed, NULL, 10) : USER_MOST + 1;
    if (user > USER_MOST)
        wrong_use("a user is a number from 0 to 15, and not '%s'", typed);
    return (uint8_t)user;
}

// Lays a part of a name, blanks behind it; false where it is too long. In a pattern * is any rest.
static bool lay(uint8_t *to, size_t room, const char *from, size_t count, bool pattern)
{
    const char *star = pattern ? memchr(from, '*', count) : NULL;
    memset(to, star == NULL ? ' ' : ANY, room);
    if (star != NULL)
        count = (size_t)(star - from);
    if (count > room)
        return false;
    memcpy(to, from, count);
    return true;
}

static bool can_stand(const char *typed)
{
    for (; *typed != '\0'; typed++)
        if (*typed < ' ' || *typed > '~')
            return false;
    return true;
}

// The digits and the colon before a name: the user; what stands behind them.
static const char *take_user(const char *typed, struct name *name)
{
    size_t digits = strspn(typed, "0123456789");
    char user[4] = "";
    name->user = 0;
    name->user_typed = digits > 0 && typed[digits] == ':';
    if (!name->user_typed)
        return typed;
    snprintf(user, sizeof user, "%.*s", (int)digits, typed);
    name->user = user_of(digits < sizeof user ? user : typed);
    return typed + digits + 1;
}

// The last full stop parts name and type, so that an old file with another in its name can be named too.
static struct name parsed(const char *typed, bool pattern)
{
    struct name name;
    const char *rest = take_user(typed, &name);
    const char *stop = strrchr(rest, '.');
    size_t called = stop == NULL ? strlen(rest) : (size_t)(stop - rest);
    const char *kind = stop == NULL ? "" : stop + 1;
    if (called == 0)
        wrong_use("'%s' has no name in it; a file is typed as SIGLA.TXT, or 3:SIGLA.TXT for user 3", typed);
    if (!can_stand(rest))
        wrong_use("'%s' has a character that no name on a disk has", typed);
    if (!lay(name.bytes, CALLED, rest, called, pattern) || !lay(name.bytes + CALLED, KIND, kind, strlen(kind), pattern))
        wrong_use("'%s' is too long: a name has up to 8 characters, and its type up to 3", typed);
    return name;
}

struct name name_of(const char *typed)
{
    return parsed(typed, false);
}

struct name pattern_of(const char *typed)
{
    return parsed(strcmp(typed, "*") == 0 ? "*.*" : typed, true);
}

struct name in_capitals(struct name name)
{
    for (int k = 0; k < NAME_BYTES; k++)
        name.bytes[k] = (uint8_t)toupper(name.bytes[k]);
    return name;
}

bool is_pattern(const struct name *name)
{
    return memchr(name->bytes, ANY, NAME_BYTES) != NULL;
}

bool matches(const struct name *pattern, const uint8_t *name)
{
    for (int k = 0; k < NAME_BYTES; k++)
        if (pattern->bytes[k] != ANY && pattern->bytes[k] != name[k])
            return false;
    return true;
}

// Bytes without the blanks behind them; one that can't be shown as it is, as \xHH. Hands back the end.
static char *show(const uint8_t *from, int count, char *to)
{
    while (count > 0 && (from[count - 1] & 0x7F) == ' ')
        count--;
    for (int k = 0; k < count; k++) {
        uint8_t byte = from[k] & 0x7F;
        to += sprintf(to, byte < ' ' || byte > '~' ? "\\x%02X" : "%c", byte);
    }
    return to;
}

const char *shown_name(const uint8_t *name, char *shown)
{
    char *end = show(name, CALLED, shown);
    char *stop = end;
    *end++ = '.';
    end = show(name + CALLED, KIND, end);
    *(end == stop + 1 ? stop : end) = '\0';
    return shown;
}

const char *shown_file(uint8_t user, const uint8_t *name, char *shown)
{
    int before = user == 0 ? 0 : sprintf(shown, "%u:", user);
    shown_name(name, shown + before);
    return shown;
}

/*
 * What both programs know of a printed header. "policy.h" is written by tools/try_c: it includes the header, and NAME gives the
 * policy's words. It comes first, since the header has to stand by itself.
 */
#include "policy.h"
#include <stddef.h>
#include <stdio.h>
#include <stdlib.h>
#include <string.h>

/* An attribute, and where it lies in its struct. The last of a table has no name. */
struct attr {
	const char *name;
	size_t at;
	int64_t least, greatest, start;
};

#define CORE_ATTR(name) { #name, offsetof(struct NAME(_core), attr_##name), NAME(_CORE_MIN_##name), NAME(_CORE_MAX_##name), \
	NAME(_CORE_START_##name) },
#define THREAD_ATTR(name) { #name, offsetof(struct NAME(_thread), attr_##name), NAME(_THREAD_MIN_##name), NAME(_THREAD_MAX_##name), \
	NAME(_THREAD_START_##name) },
static const struct attr core_attrs[] = { NAME(_CORE_ATTRS)(CORE_ATTR) { NULL, 0, 0, 0, 0 } };
static const struct attr thread_attrs[] = { NAME(_THREAD_ATTRS)(THREAD_ATTR) { NULL, 0, 0, 0, 0 } };

static inline int64_t *field(void *owner, const struct attr *attr)
{
	return (int64_t *)((char *)owner + attr->at);
}

static inline void set_starts(void *owner, const struct attr *attrs)
{
	for (; attrs->name; attrs++)
		*field(owner, attrs) = attrs->start;
}

static inline void set_named(void *owner, const struct attr *attrs, const char *name, int64_t value)
{
	while (attrs->name && strcmp(attrs->name, name))
		attrs++;
	if (!attrs->name)
		exit(2);
	*field(owner, attrs) = value;
}

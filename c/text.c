/* The version and the sentences for refusals: strings, which the proved library
 * has no use for. `make` puts this beside it into the archive and the shared
 * object. */
#include "etglavino.h"

const char *etg_version(void)
{
    return ETG_VERSION;
}

const char *etg_refusal_text(uint32_t number)
{
    switch (number) {
    case ETG_ACCEPTED:
        return "accepted";
    case ETG_FORM:
        return "the form is not 1 to 4, or in writing not 1 to 3";
    case ETG_SOURCE_SIZE:
        return "the source has over 32,768 octets";
    case ETG_SYNTAX:
        return "the source is not in the form's language";
    case ETG_DEPTH:
        return "lists nest over 128 deep";
    case ETG_NODES:
        return "more nodes than records are lent";
    case ETG_SIZE:
        return "over 16,384 canonical octets, or a result over the lent room";
    case ETG_NOT_OWN:
        return "not one tree's canonical form with its own table, or a place outside what is lent";
    case ETG_NO_NODE:
        return "there is no node of that number";
    case ETG_NO_PLACE:
        return "not a list, no such place in it, or node 0 to be removed";
    case ETG_DAMAGED:
        return "the area of the spool is damaged";
    case ETG_NOT_TYPED:
        return "not a value of its type, or not finite";
    case ETG_NOT_LINE:
        return "not a line of three hours in whole quarters";
    default:
        return "no refusal has this number";
    }
}

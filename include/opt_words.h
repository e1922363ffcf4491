/* Names and plain words for the replies of opt.h, for messages to people. Only inline functions: there is nothing to link. */
#ifndef CIZASMOK_OPT_WORDS_H
#define CIZASMOK_OPT_WORDS_H

#include "opt.h"

struct opt_words {
    uint32_t reply, second;
    const char *name;  /* as docs/RULES.md spells it */
    const char *words; /* what is wrong, and what to do */
};

/* The row of a refusal; the last one, which is no refusal's, for OPT_DONE. */
static inline const struct opt_words *opt_words_of(struct opt_answer answer)
{
    static const struct opt_words rows[] = {
        {1, 0, "BadSheet",
         "the sheet is malformed: a field is cut, stands where it may not, or holds what its tag does not allow; docs/RULES.md "
         "has the form of a sheet, [FORM-1] to [FORM-7]"},
        {2, 0, "BadRequest",
         "the request is malformed, or the scope, path, name, kind, numbering, list of words or place that the call was given; "
         "docs/RULES.md has the form of each, [FORM-1] to [FORM-14], [LOWER-2], [LOWER-6], [LOWER-10] and [PAYLOAD-2]"},
        {3, 0, "BeyondLimit",
         "an input is past a limit: a sheet has at most 32,768 bytes, 8 files and messages 16 deep, a request 8,192 bytes, 128 "
         "options, 16 parts a name and constants 16 deep; option bytes are at most 65,536, with messages 31 deep; a list to "
         "lower has at most 4,096 words"},
        {4, 0, "ExtensionNotFound",
         "no extension of that name is declared in the scope or in one around it; correct the name, which a query needs in full,"
         " or add the file that declares it to the sheet"},
        {5, 0, "WrongExtensionType",
         "the extension that is found first extends another message; write the full name with a leading dot if you mean one "
         "further out"},
        {6, 0, "ExtensionIsNotMessage",
         "the name goes on behind this part, whose type is no message; end the name here, or declare the part with a message "
         "type"},
        {7, 0, "MessageNotFound",
         "the options type, or the type of this part, of a field in its constant or of a listed record, names no message or enum"
         " of the sheet; write its full name, or add the file that declares it"},
        {8, 0, "MessageFoundMoreThanOnce",
         "the options type, or the type of this part, of a field in its constant or of a listed record, names a message or enum "
         "that several files declare; leave all but one of these files out of the sheet"},
        {9, 0, "UnknownFieldName",
         "the message has no field of that name; correct this part, or the name in its constant, or write it in parentheses if "
         "you mean an extension"},
        {10, 0, "BuiltinOptionNotFound",
         "the options type has no field of that name; correct it, or write it in parentheses if you mean an extension"},
        {10, 1, "BuiltinOptionPointsToNonSingularField",
         "the options type has a repeated field of that name, which an option cannot set; leave the option out"},
        {11, 0, "MessageFieldRequiresMessageConstant",
         "a message constant is set on something whose type is no message; write a constant of its type"},
        {12, 0, "UnsupportedExtensionType",
         "the constant does not fit the type: a bool takes true or false, an integer type an integer, float and double any "
         "number, string and bytes a string, an enum a name, a message a message constant; of the options type's own fields only"
         " a bool, a string, and an enum by a name that it lists can be set"},
        {13, 0, "UnknownEnumValue",
         "the enum has no value of that name; write one that it lists"},
        {14, 0, "ValueRange",
         "the type does not hold that integer: 32 bits hold -2147483648 to 2147483647 with a sign and 0 to 4294967295 without, "
         "64 bits -9223372036854775808 to 9223372036854775807 and 0 to 18446744073709551615"},
        {15, 0, "StrLitDecodeError",
         "the string is not UTF-8; correct it, or declare the option as bytes"},
        {16, 0, "RangeEnd",
         "a range ends at 2147483647, and its exclusive end would be one more; end it at 536870911, the highest field number"},
        {17, 0, "NoRoom",
         "the answer is longer than the room that was lent; enough is always 65,536 bytes for resolve, 10 words for find, 8 for "
         "query, 8 for each option byte for list, and as many as it is given for a lowering"},
        {18, 0, "BadBytes",
         "the option bytes are malformed: a record is cut, a varint has more than 64 bits, a number is not within 1 to "
         "536870911, or a wire type is none of 0, 1, 2 and 5; see that they are option bytes, and whole"},
        {19, 0, "WireMismatch",
         "a record has a number that the sheet declares, and another wire type than its type has; read the bytes under the "
         "schema that they were written with"},
        {0, 0, "Done", "nothing is wrong"}};
    const struct opt_words *row = rows;
    while (row->reply != OPT_DONE && (row->reply != answer.reply || row->second != answer.second))
        row++;
    return row;
}

/* The name of a refusal, as WrongExtensionType. */
static inline const char *opt_reply_name(struct opt_answer answer)
{
    return opt_words_of(answer)->name;
}

/* What is wrong, and what to do: a sentence without a capital and without a full stop. */
static inline const char *opt_reply_words(struct opt_answer answer)
{
    return opt_words_of(answer)->words;
}

#endif

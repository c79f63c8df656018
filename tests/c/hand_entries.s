# A shared object whose debug information is written by hand, in DWARF 5. As written it has no fault. tests/sentences.sh puts
# another value into one field at a time: a field is the word before ##, and its name comes after. In C the source would be
#
#     struct point { int x; };
#     typedef struct point place;
#     int f(place from) {..}      a function with an address
#     void g(void) {..}           one with a list of ranges
#     void h(void) {..}           one that has its name from another entry
#     long v;                     a variable, whose type stands in a type unit

# ---- DWARF 5, section 7.5 "Format of Debugging Information", and 7.25 "Non-contiguous Address Ranges"

    DW_UT_compile = 0x01; DW_UT_type = 0x02
    DW_TAG_formal_parameter = 0x05; DW_TAG_member = 0x0d; DW_TAG_compile_unit = 0x11; DW_TAG_structure_type = 0x13
    DW_TAG_typedef = 0x16; DW_TAG_base_type = 0x24; DW_TAG_subprogram = 0x2e; DW_TAG_variable = 0x34; DW_TAG_type_unit = 0x41
    DW_AT_location = 0x02; DW_AT_name = 0x03; DW_AT_byte_size = 0x0b; DW_AT_low_pc = 0x11; DW_AT_language = 0x13
    DW_AT_abstract_origin = 0x31; DW_AT_data_member_location = 0x38; DW_AT_encoding = 0x3e; DW_AT_type = 0x49
    DW_AT_ranges = 0x55; DW_AT_str_offsets_base = 0x72
    DW_FORM_addr = 0x01; DW_FORM_data8 = 0x07; DW_FORM_string = 0x08; DW_FORM_data1 = 0x0b; DW_FORM_strp = 0x0e
    DW_FORM_ref4 = 0x13; DW_FORM_sec_offset = 0x17; DW_FORM_exprloc = 0x18; DW_FORM_strp_sup = 0x1d
    DW_FORM_ref_sig8 = 0x20; DW_FORM_strx1 = 0x25
    DW_LANG_C_plus_plus = 0x04; DW_LANG_C11 = 0x1d
    DW_ATE_signed = 0x05
    DW_OP_addr = 0x03
    DW_RLE_end_of_list = 0x00; DW_RLE_start_length = 0x07

# ---- what is exported

    .section .note.GNU-stack, "", @progbits
    .globl f, g, h, v
    .type f, @function
    .type g, @function
    .type h, @function
    .type v, @object
    .text
f:  ret
    .size f, 1
g:  ret
    .size g, 1
h:  ret
    .size h, 1
    .bss
v:  .skip 8
    .size v, 8

# ---- abbreviations: code and tag, whether there are children, and pairs of attribute and form

    .section .debug_abbrev, "", @progbits
    .uleb128 1, DW_TAG_compile_unit             ## tag of the root
    .byte 1
    .uleb128 DW_AT_language, DW_FORM_data1, DW_AT_str_offsets_base, DW_FORM_sec_offset, 0, 0
form_of_int:
    .uleb128 2, DW_TAG_base_type
    .byte 0                                     ## children of int
    .uleb128 DW_AT_name, DW_FORM_strp           ## form of the name of int
    .uleb128 DW_AT_byte_size, DW_FORM_data1, DW_AT_encoding, DW_FORM_data1, 0, 0
    .uleb128 3, DW_TAG_structure_type
    .byte 1
    .uleb128 DW_AT_name, DW_FORM_strx1, DW_AT_byte_size, DW_FORM_data8, 0, 0
    .uleb128 4, DW_TAG_member
    .byte 0
    .uleb128 DW_AT_name, DW_FORM_string, DW_AT_type, DW_FORM_ref4, DW_AT_data_member_location, DW_FORM_data1, 0, 0
    .uleb128 5, DW_TAG_typedef
    .byte 0
    .uleb128 DW_AT_name, DW_FORM_string, DW_AT_type, DW_FORM_ref4, 0, 0
    .uleb128 6, DW_TAG_subprogram
    .byte 1
    .uleb128 DW_AT_name, DW_FORM_string, DW_AT_type, DW_FORM_ref4, DW_AT_low_pc, DW_FORM_addr, 0, 0
    .uleb128 7, DW_TAG_formal_parameter
    .byte 0
    .uleb128 DW_AT_type, DW_FORM_ref4, 0, 0
    .uleb128 8, DW_TAG_subprogram
    .byte 0
    .uleb128 DW_AT_name, DW_FORM_string, DW_AT_ranges, DW_FORM_sec_offset, 0, 0
    .uleb128 9, DW_TAG_subprogram
    .byte 0
    .uleb128 DW_AT_name, DW_FORM_string, 0, 0
    .uleb128 10, DW_TAG_subprogram
    .byte 0
    .uleb128 DW_AT_abstract_origin, DW_FORM_ref4, DW_AT_low_pc, DW_FORM_addr, 0, 0
    .uleb128 11, DW_TAG_variable
    .byte 0
    .uleb128 DW_AT_name, DW_FORM_string, DW_AT_type, DW_FORM_ref_sig8, DW_AT_location, DW_FORM_exprloc, 0, 0
    .uleb128 12, DW_TAG_type_unit
    .byte 1
    .uleb128 0, 0
    .uleb128 0

# ---- entries: the code of the abbreviation, and the values of the attributes

    .section .debug_info, "", @progbits
unit:
    .long unit_end-unit-4                       ## length
    .short 5                                    ## version
    .byte DW_UT_compile                         ## unit type
    .byte 8                                     ## address size
    .long 0
root:
    .uleb128 1
    .byte DW_LANG_C11                           ## language
    .long offsets_base-offsets
int:
    .uleb128 2                                  ## code of int
    .long name_of_int-names                     ## name of int
    .byte 4
    .byte DW_ATE_signed                         ## encoding of int
point:
    .uleb128 3
    .byte 0                                     ## index of the name of point
    .quad 4                                     ## size of point
    .uleb128 4
    .string "x"
    .long int-unit
    .byte 0
    .uleb128 0
place:
    .uleb128 5
    .string "place"
    .long point-unit                            ## type of place
entry_of_f:
    .uleb128 6
    .string "f"
    .long int-unit                              ## result of f
    .quad f
    .uleb128 7
    .long place-unit
    .uleb128 0
entry_of_g:
    .uleb128 8
    .string "g"
    .long list_of_g-lists                       ## ranges of g
origin_of_h:
    .uleb128 9
    .string "h"
entry_of_h:
    .uleb128 10
    .long origin_of_h-unit                      ## origin of h
    .quad h
entry_of_v:
    .uleb128 11
    .string "v"
    .quad 0x1122334455667788
    .uleb128 9                                  ## length of the location of v
    .byte DW_OP_addr
    .quad v
    .uleb128 0
unit_end:

type_unit:
    .long type_unit_end-type_unit-4
    .short 5
    .byte DW_UT_type
    .byte 8
    .long 0
    .quad 0x1122334455667788
    .long long-type_unit                        ## offset of the type
    .uleb128 12
long:
    .uleb128 2
    .long name_of_long-names
    .byte 8
    .byte DW_ATE_signed
    .uleb128 0
type_unit_end:

# ---- names, offsets of names, and ranges

    .section .debug_str, "", @progbits
names:
name_of_point:
    .string "point"
name_of_int:
    .string "int"
name_of_long:
    .string "long"

    .section .debug_str_offsets, "", @progbits
offsets:
    .long offsets_end-offsets-4
    .short 5, 0
offsets_base:
    .long name_of_point-names
offsets_end:

    .section .debug_rnglists, "", @progbits
lists:
    .long lists_end-lists-4
    .short 5
    .byte 8, 0
    .long 0
list_of_g:
    .byte DW_RLE_start_length
    .quad g
    .uleb128 1
    .byte DW_RLE_end_of_list
lists_end:

/* Joins the library's code in one section, whose ends the harness can name. */
SECTIONS { jibrufath_text : { *(.text .text.*) } }

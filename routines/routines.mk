# For a Makefile of your own:
#     ROUTINES_USED = chacha20_xor poly1305_block
#     include routines/routines.mk
#     firmware.elf: main.o $(ROUTINES_OBJECTS)
# and $(ROUTINES_FLAGS) among the flags of what includes their headers. ROUTINES_CODE = small takes the code of fewer words,
# ROUTINES_C_USED = sha sha_256 adds these files of routines/c, ROUTINES_BUILD is the folder for the objects, of which those of each
# code have a folder of their own, ROUTINES_AS what assembles them, and ROUTINES_CC what compiles the C files. Neither Rattle nor
# factc is needed. What includes the headers is not made again where ROUTINES_CODE changes: give it a folder of its own too.
ROUTINES_FOLDER := $(dir $(lastword $(MAKEFILE_LIST)))
ROUTINES_BUILD ?= routine_objects
ROUTINES_AS ?= riscv64-unknown-elf-gcc -march=rv32im -mabi=ilp32
ROUTINES_CC ?= $(ROUTINES_AS) -O2 -ffreestanding
ROUTINES_CODE ?= asm
ROUTINES_FLAGS = -I$(ROUTINES_FOLDER)$(if $(filter small,$(ROUTINES_CODE)),small,include) -I$(ROUTINES_FOLDER)c
ROUTINES_HEADERS = $(wildcard $(ROUTINES_FOLDER)c/*.h)
# Objects of one code never take the place of those of the other, whose headers say another size of stack.
ROUTINES_MADE = $(ROUTINES_BUILD)/$(ROUTINES_CODE)
ROUTINES_OBJECTS = $(ROUTINES_USED:%=$(ROUTINES_MADE)/%.o) $(ROUTINES_C_USED:%=$(ROUTINES_MADE)/c/%.o)

$(ROUTINES_MADE)/%.o: $(ROUTINES_FOLDER)$(ROUTINES_CODE)/%.s
	@mkdir -p $(@D)
	$(ROUTINES_AS) -c $< -o $@

$(ROUTINES_MADE)/c/%.o: $(ROUTINES_FOLDER)c/%.c $(ROUTINES_HEADERS)
	@mkdir -p $(@D)
	$(ROUTINES_CC) $(ROUTINES_FLAGS) -c $< -o $@

/* What is read of an ELF file of x86-64, in the words of its specification. */

#ifndef J39_ELF_FORMAT_H
#define J39_ELF_FORMAT_H

#include <stdint.h>

typedef struct {
	unsigned char e_ident[16];
	uint16_t e_type, e_machine;
	uint32_t e_version;
	uint64_t e_entry, e_phoff, e_shoff;
	uint32_t e_flags;
	uint16_t e_ehsize, e_phentsize, e_phnum, e_shentsize, e_shnum, e_shstrndx;
} elf_header;

typedef struct {
	uint32_t p_type, p_flags;
	uint64_t p_offset, p_vaddr, p_paddr, p_filesz, p_memsz, p_align;
} elf_segment;

typedef struct {
	int64_t d_tag;
	uint64_t d_value;
} elf_dynamic;

typedef struct {
	uint64_t r_offset;
	uint32_t r_type, r_symbol;
	int64_t r_addend;
} elf_relocation;

typedef struct {
	uint32_t st_name;
	unsigned char st_info, st_other;
	uint16_t st_shndx;
	uint64_t st_value, st_size;
} elf_symbol;

enum { ELF_CLASS = 4, ELF_64 = 2, ELF_DATA = 5, ELF_LITTLE = 1, ET_DYN = 3, EM_X86_64 = 62 };
enum { PT_LOAD = 1, PT_DYNAMIC = 2, PT_TLS = 7, PF_X = 1, PF_W = 2 };
enum { R_X86_64_GLOB_DAT = 6, R_X86_64_JUMP_SLOT = 7, R_X86_64_RELATIVE = 8, STB_WEAK = 2 };
enum {
	DT_NULL = 0, DT_PLTRELSZ = 2, DT_STRTAB = 5, DT_SYMTAB = 6, DT_RELA = 7, DT_RELASZ = 8, DT_INIT = 12, DT_JMPREL = 23,
	DT_INIT_ARRAY = 25, DT_INIT_ARRAYSZ = 27, DT_KNOWN = 28
};

#endif

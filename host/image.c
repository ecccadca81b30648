/* Maps the program's file: each offset that the file names is looked at before it is used. */

#include "image.h"

#include "calls.h"
#include "elf_format.h"
#include "j39plan.h"
#include "pages.h"

#include <stdlib.h>
#include <string.h>

/* More than any program of this kind takes. */
enum { MOST = 1 << 26, MOST_SEGMENTS = 64 };

typedef struct {
	const unsigned char *bytes;
	size_t size;
	elf_header header;
	elf_segment segments[MOST_SEGMENTS];
} elf_file;

static size_t page_down(size_t at)
{
	return at & ~(size_t)(PAGE - 1);
}

static size_t page_up(size_t at)
{
	return page_down(at + PAGE - 1);
}

static int is_within(uint64_t at, uint64_t count, uint64_t size)
{
	return at <= size && count <= size - at;
}

static int is_known(const elf_header *header)
{
	return memcmp(header->e_ident, "\177ELF", 4) == 0 && header->e_ident[ELF_CLASS] == ELF_64 && header->e_ident[ELF_DATA] == ELF_LITTLE &&
	       header->e_type == ET_DYN && header->e_machine == EM_X86_64 && header->e_phentsize == sizeof(elf_segment) &&
	       header->e_phnum <= MOST_SEGMENTS;
}

/* Whether a segment lies in the file and below the limit, and wants no thread-locals, nor pages that are written and run. */
static int is_sound(const elf_segment *it, size_t size)
{
	if (it->p_type == PT_TLS)
		return 0;
	if (it->p_type != PT_LOAD)
		return 1;
	return is_within(it->p_offset, it->p_filesz, size) && is_within(it->p_vaddr, it->p_memsz, MOST) && it->p_filesz <= it->p_memsz &&
	       !((it->p_flags & PF_W) && (it->p_flags & PF_X));
}

static int read_file(elf_file *it, const unsigned char *bytes, size_t size)
{
	it->bytes = bytes;
	it->size = size;
	if (size < sizeof it->header)
		return 0;
	memcpy(&it->header, bytes, sizeof it->header);
	if (!is_known(&it->header) || !is_within(it->header.e_phoff, it->header.e_phnum * sizeof(elf_segment), size))
		return 0;
	memcpy(it->segments, bytes + it->header.e_phoff, it->header.e_phnum * sizeof(elf_segment));
	for (size_t i = 0; i < it->header.e_phnum; i++)
		if (!is_sound(&it->segments[i], size))
			return 0;
	return 1;
}

/* Copies the segments, and notes which pages are written. */
static int copy(image *it, const elf_file *file)
{
	size_t low = MOST, high = 0;

	for (size_t i = 0; i < file->header.e_phnum; i++) {
		const elf_segment *segment = &file->segments[i];
		size_t end = page_up(segment->p_vaddr + segment->p_memsz), at = page_down(segment->p_vaddr);

		if (segment->p_type != PT_LOAD)
			continue;
		it->size = end > it->size ? end : it->size;
		if (segment->p_flags & PF_W) {
			low = at < low ? at : low;
			high = end > high ? end : high;
		}
	}
	if (low >= high)
		return J39_NO_PROGRAM;
	it->writable = low;
	it->writable_size = high - low;
	it->base = pages_new(it->size);
	if (!it->base)
		return J39_MEMORY;
	for (size_t i = 0; i < file->header.e_phnum; i++)
		if (file->segments[i].p_type == PT_LOAD)
			memcpy(it->base + file->segments[i].p_vaddr, file->bytes + file->segments[i].p_offset, file->segments[i].p_filesz);
	return 0;
}

/* What the dynamic section says, by the numbers of its tags. */
static int read_dynamic(const image *it, const elf_file *file, uint64_t *said)
{
	for (size_t i = 0; i < file->header.e_phnum; i++) {
		const elf_segment *segment = &file->segments[i];

		if (segment->p_type != PT_DYNAMIC)
			continue;
		for (uint64_t at = segment->p_vaddr; is_within(at, sizeof(elf_dynamic), it->size); at += sizeof(elf_dynamic)) {
			elf_dynamic row;

			memcpy(&row, it->base + at, sizeof row);
			if (row.d_tag == DT_NULL)
				return 1;
			if (row.d_tag > 0 && row.d_tag < DT_KNOWN)
				said[row.d_tag] = row.d_value;
		}
	}
	return 0;
}

/* The call of the C library that a symbol names; 0 for a weak one that isn't there, -1 where it can't be bound. */
static int64_t bound(const image *it, const uint64_t *said, uint32_t number)
{
	uint64_t at = said[DT_SYMTAB] + (uint64_t)number * sizeof(elf_symbol), name;
	elf_symbol symbol;
	const void *call;

	if (said[DT_SYMTAB] > it->size || !is_within(at, sizeof symbol, it->size))
		return -1;
	memcpy(&symbol, it->base + at, sizeof symbol);
	name = said[DT_STRTAB] + symbol.st_name;
	if (said[DT_STRTAB] > it->size || name >= it->size || !memchr(it->base + name, 0, it->size - name))
		return -1;
	call = call_of((const char *)it->base + name);
	if (!call && symbol.st_info >> 4 != STB_WEAK)
		return -1;
	return (int64_t)(uintptr_t)call;
}

static int relocate(image *it, const uint64_t *said, uint64_t table, uint64_t count)
{
	if (!is_within(table, count, it->size))
		return 0;
	for (uint64_t at = table; at + sizeof(elf_relocation) <= table + count; at += sizeof(elf_relocation)) {
		elf_relocation row;
		int64_t value;

		memcpy(&row, it->base + at, sizeof row);
		if (row.r_type == R_X86_64_RELATIVE && is_within((uint64_t)row.r_addend, 0, it->size))
			value = (int64_t)((uintptr_t)it->base + (uint64_t)row.r_addend);
		else if (row.r_type == R_X86_64_GLOB_DAT || row.r_type == R_X86_64_JUMP_SLOT)
			value = bound(it, said, row.r_symbol);
		else
			return 0;
		if (value == -1 || row.r_offset < it->writable || !is_within(row.r_offset - it->writable, sizeof value, it->writable_size))
			return 0;
		memcpy(it->base + row.r_offset, &value, sizeof value);
	}
	return 1;
}

/* Notes where code is entered; each place has to lie in a segment that is run. */
static int note_code(image *it, const elf_file *file, const uint64_t *said)
{
	it->entry = file->header.e_entry;
	it->init = said[DT_INIT];
	it->init_array = said[DT_INIT_ARRAY];
	it->init_count = said[DT_INIT_ARRAYSZ] / sizeof(uint64_t);
	if (!is_within(it->init_array, said[DT_INIT_ARRAYSZ], it->size) || it->init >= it->size)
		return 0;
	for (size_t i = 0; i < file->header.e_phnum; i++) {
		const elf_segment *segment = &file->segments[i];

		if (segment->p_type == PT_LOAD && (segment->p_flags & PF_X) && it->entry - segment->p_vaddr < segment->p_memsz)
			return 1;
	}
	return 0;
}

/* Takes the right to write from all segments that aren't written. */
static int fix(const image *it, const elf_file *file)
{
	for (size_t i = 0; i < file->header.e_phnum; i++) {
		const elf_segment *segment = &file->segments[i];
		size_t at = page_down(segment->p_vaddr);

		if (segment->p_type != PT_LOAD || (segment->p_flags & PF_W))
			continue;
		if (!pages_fix(it->base + at, page_up(segment->p_vaddr + segment->p_memsz) - at, (segment->p_flags & PF_X) != 0))
			return 0;
	}
	return 1;
}

static int prepared(image *it, const elf_file *file)
{
	uint64_t said[DT_KNOWN] = {0};

	if (!read_dynamic(it, file, said) || !relocate(it, said, said[DT_RELA], said[DT_RELASZ]) ||
	    !relocate(it, said, said[DT_JMPREL], said[DT_PLTRELSZ]) || !note_code(it, file, said))
		return J39_NO_PROGRAM;
	it->first = malloc(it->writable_size);
	if (!it->first)
		return J39_MEMORY;
	memcpy(it->first, it->base + it->writable, it->writable_size);
	return fix(it, file) ? 0 : J39_NO_PROGRAM;
}

int image_map(image *it, const unsigned char *bytes, size_t size)
{
	elf_file file;
	int status;

	memset(it, 0, sizeof *it);
	if (!read_file(&file, bytes, size))
		return J39_NO_PROGRAM;
	status = copy(it, &file);
	if (!status)
		status = prepared(it, &file);
	if (status)
		image_unmap(it);
	return status;
}

void image_unmap(image *it)
{
	if (it->base)
		pages_free(it->base, it->size);
	free(it->first);
	memset(it, 0, sizeof *it);
}

void image_begin(image *it)
{
	memcpy(it->base + it->writable, it->first, it->writable_size);
}

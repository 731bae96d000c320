/* Folders of files in memory, for the programs beside this file. */
#ifndef FILES_H
#define FILES_H

#include "tufcheck.h"

#include <dirent.h>
#include <stdio.h>
#include <stdlib.h>
#include <string.h>
#include <sys/stat.h>

static void *room(size_t size)
{
    void *memory = malloc(size + 1);
    if (memory == NULL) {
        perror("malloc");
        exit(4);
    }
    return memory;
}

static tufcheck_bytes read_file(const char *path)
{
    FILE *file = fopen(path, "rb");
    if (file == NULL) {
        perror(path);
        exit(4);
    }
    fseek(file, 0, SEEK_END);
    size_t len = (size_t)ftell(file);
    rewind(file);
    /* Bytes of their own length, so that a read past their end is seen. */
    uint8_t *data = malloc(len == 0 ? 1 : len);
    if (data == NULL || fread(data, 1, len, file) != len) {
        perror(path);
        exit(4);
    }
    fclose(file);
    return (tufcheck_bytes){data, len};
}

typedef struct {
    tufcheck_file *files;
    size_t count;
} list;

/* Reads all files below the folder; `name` is the folder's own name below the first one. */
static void read_below(const char *folder, const char *name, list *all)
{
    DIR *dir = opendir(folder);
    if (dir == NULL) {
        perror(folder);
        exit(4);
    }
    for (struct dirent *entry; (entry = readdir(dir)) != NULL;) {
        struct stat stat_;
        char *path = room(strlen(folder) + strlen(entry->d_name) + 1);
        char *own = room(strlen(name) + strlen(entry->d_name) + 1);
        if (strcmp(entry->d_name, ".") == 0 || strcmp(entry->d_name, "..") == 0)
            continue;
        sprintf(path, "%s/%s", folder, entry->d_name);
        sprintf(own, "%s%s%s", name, *name ? "/" : "", entry->d_name);
        if (stat(path, &stat_) != 0) {
            perror(path);
            exit(4);
        }
        if (S_ISDIR(stat_.st_mode)) {
            read_below(path, own, all);
            continue;
        }
        all->files = realloc(all->files, (all->count + 1) * sizeof *all->files);
        all->files[all->count].name = (tufcheck_bytes){(const uint8_t *)own, strlen(own)};
        all->files[all->count++].bytes = read_file(path);
    }
    closedir(dir);
}

static list read_folder(const char *folder)
{
    list all = {room(sizeof(tufcheck_file)), 0};
    read_below(folder, "", &all);
    return all;
}

/* The job of STATE METADATA TARGETS SECONDS LIMIT PATH.. */
static tufcheck_job job_of(char **words, int count)
{
    tufcheck_job job = {.size = sizeof job};
    list metadata = read_folder(words[1]), targets = read_folder(words[2]);
    tufcheck_bytes *wanted = room((size_t)count * sizeof *wanted);
    for (int i = 5; i < count; i++)
        wanted[job.wanted_count++] = (tufcheck_bytes){(const uint8_t *)words[i], strlen(words[i])};
    job.state = read_file(words[0]);
    job.metadata = metadata.files;
    job.metadata_count = metadata.count;
    job.targets = targets.files;
    job.target_count = targets.count;
    job.wanted = wanted;
    job.moment = strtoull(words[3], NULL, 10);
    job.limit = (size_t)strtoull(words[4], NULL, 10);
    return job;
}

#endif

typedef struct _IO_FILE FILE;
FILE *fopen(const char *, const char *);
__SIZE_TYPE__ fread(void *, __SIZE_TYPE__, __SIZE_TYPE__, FILE *);
int fclose(FILE *), printf(const char *, ...), snprintf(char *, __SIZE_TYPE__, const char *, ...);

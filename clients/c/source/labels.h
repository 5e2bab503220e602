/* The label of what this process gives. */
#ifndef CONSORTIUM_LABELS_H
#define CONSORTIUM_LABELS_H

const char *label_of_process(void);

#endif

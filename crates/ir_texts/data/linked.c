struct node { struct node *next; int value; };
struct node nodes[2];
struct node *head = &nodes[0];
int *second = &nodes[1].value;
int first(void) { return head ? head->value : 0; }

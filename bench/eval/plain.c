// Evaluates expressions by libxml2. Standard input has trees as XML, one a line, and then a line for each expression: the number of its tree,
// its kind, the path of its context node and itself, with tabs between.
//
//     plain values ALL|KIND             prints what each expression gives: of a set the texts of its first and last node, and their number
//     plain evaluated ALL|KIND ROUNDS   evaluates each parsed expression so many times, and prints how often the value was true
//     plain parsed ALL|KIND ROUNDS      the same, each time from its text
//
// With a word more nothing is done to make libxml2 faster; without it nodes are numbered in document order and values are used again.
#include <libxml/parser.h>
#include <libxml/xpath.h>
#include <libxml/xpathInternals.h>
#include <stdio.h>
#include <stdlib.h>
#include <string.h>

struct expression {
    xmlXPathContextPtr tree;
    xmlNodePtr node;
    const xmlChar *text;
    xmlXPathCompExprPtr parsed;
};

static xmlXPathContextPtr trees[16];
static struct expression expressions[4096];
static int tree_count, expression_count, is_untuned;

static void fail(const char *what) {
    fprintf(stderr, "plain: %s\n", what);
    exit(1);
}

static void add_tree(const char *line, int size) {
    xmlDocPtr document = xmlReadMemory(line, size, NULL, NULL, XML_PARSE_HUGE);
    xmlXPathContextPtr context = document ? xmlXPathNewContext(document) : NULL;
    if (context == NULL || tree_count == 16) fail("a tree");
    xmlXPathRegisterNs(context, BAD_CAST "p", BAD_CAST "urn:p");
    xmlXPathRegisterNs(context, BAD_CAST "q", BAD_CAST "urn:q");
    if (!is_untuned) {
        xmlXPathOrderDocElems(document);
        xmlXPathContextSetCache(context, 1, -1, 0);
    }
    trees[tree_count++] = context;
}

static xmlXPathObjectPtr value_of(const struct expression *expression, int is_parsed) {
    expression->tree->node = expression->node;
    expression->tree->proximityPosition = 1;
    expression->tree->contextSize = 1;
    xmlXPathObjectPtr value = is_parsed ? xmlXPathCompiledEval(expression->parsed, expression->tree)
                                        : xmlXPathEvalExpression(expression->text, expression->tree);
    if (value == NULL) fail((const char *)expression->text);
    return value;
}

static void add_expression(char *line, const char *wanted) {
    char *tree = strtok(line, "\t"), *kind = strtok(NULL, "\t"), *path = strtok(NULL, "\t"), *text = strtok(NULL, "\n");
    if (text == NULL || atoi(tree) < 1 || atoi(tree) > tree_count || expression_count == 4096) fail("an expression");
    if (strcmp(wanted, "ALL") && strcmp(wanted, kind)) return;
    struct expression *new = &expressions[expression_count++];
    new->tree = trees[atoi(tree) - 1];
    new->node = xmlDocGetRootElement(new->tree->doc);
    new->text = BAD_CAST path;
    xmlXPathObjectPtr context = value_of(new, 0);
    if (context->nodesetval == NULL || context->nodesetval->nodeNr == 0) fail("no context node");
    new->node = context->nodesetval->nodeTab[0];
    xmlXPathFreeObject(context);
    new->text = BAD_CAST strdup(text);
    new->parsed = xmlXPathCompile(new->text);
    if (new->parsed == NULL) fail(text);
}

static void print_text(xmlChar *text) {
    printf("%s\n", text);
    xmlFree(text);
}

static void print_value(const struct expression *expression) {
    xmlXPathObjectPtr value = value_of(expression, 1);
    print_text(xmlXPathCastToString(value));
    xmlNodeSetPtr nodes = value->nodesetval;
    if (value->type == XPATH_NODESET && nodes != NULL && nodes->nodeNr > 0) {
        printf("%d nodes to ", nodes->nodeNr);
        print_text(xmlXPathCastNodeToString(nodes->nodeTab[nodes->nodeNr - 1]));
    }
    xmlXPathFreeObject(value);
}

int main(int count, char **words) {
    char *line = NULL;
    size_t room = 0;
    ssize_t size;
    if (count < 3) fail("words");
    is_untuned = count > 4;
    while ((size = getline(&line, &room, stdin)) > 0) {
        if (line[0] == '<') add_tree(line, (int)size);
        else add_expression(line, words[2]);
    }
    if (!strcmp(words[1], "values")) {
        for (int at = 0; at < expression_count; at++) print_value(&expressions[at]);
        return 0;
    }
    int is_parsed = !strcmp(words[1], "evaluated");
    long rounds = count > 3 ? atol(words[3]) : 1, truths = 0;
    for (long round = 0; round < rounds; round++) {
        for (int at = 0; at < expression_count; at++) {
            xmlXPathObjectPtr value = value_of(&expressions[at], is_parsed);
            truths += xmlXPathCastToBoolean(value);
            xmlXPathFreeObject(value);
        }
    }
    printf("%ld\n", truths);
    return 0;
}

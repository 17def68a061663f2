/* writer PORT: Paho C does what the lines of the input say (asked.py, `Action`), one after the other: the next one only
   when the broker has acknowledged the last. The synchronous client without callbacks has no thread of its own. */
#include <MQTTClient.h>
#include <stdio.h>
#include <stdlib.h>
#include <string.h>
#include <time.h>

enum { PATIENCE = 10000, MOST = 32 }; /* milliseconds; words of a line */

static MQTTClient client;
static char *words[MOST];
static int count;

static void must(int rc, const char *what) {
    if (rc != MQTTCLIENT_SUCCESS) {
        fprintf(stderr, "writer: %s: %d\n", what, rc);
        exit(1);
    }
}

/* A word that says "-" says that there is none. */
static char *given(char *word) { return strcmp(word, "-") == 0 ? NULL : word; }

/* The bytes that hexadecimal digits stand for, over these; how many there are. */
static int bytes(char *digits) {
    int n = (int)strlen(digits) / 2;
    for (int i = 0; i < n; i++) {
        char pair[3] = {digits[2 * i], digits[2 * i + 1], 0};
        digits[i] = (char)strtol(pair, NULL, 16);
    }
    return n;
}

/* Takes a message, should one come in this time; whether it is of the topic that is waited for. */
static int receive(unsigned long milliseconds, const char *awaited) {
    char *topic = NULL;
    int length, same;
    MQTTClient_message *message = NULL;
    must(MQTTClient_receive(client, &topic, &length, &message, milliseconds), "receive");
    if (message == NULL) return 0;
    same = strcmp(topic, awaited) == 0;
    MQTTClient_freeMessage(&message);
    MQTTClient_free(topic);
    return same;
}

static void idle(int seconds) {
    for (time_t end = time(NULL) + seconds; time(NULL) < end;) receive(100, "");
}

static void start(const char *port) { /* id clean keepalive user password, and the will: topic qos retain payload */
    MQTTClient_connectOptions options = MQTTClient_connectOptions_initializer;
    MQTTClient_willOptions will = MQTTClient_willOptions_initializer;
    char address[40];
    snprintf(address, sizeof address, "tcp://127.0.0.1:%s", port);
    must(MQTTClient_create(&client, address, words[1], MQTTCLIENT_PERSISTENCE_NONE, NULL), "create");
    options.MQTTVersion = MQTTVERSION_3_1_1;
    options.cleansession = atoi(words[2]);
    options.keepAliveInterval = atoi(words[3]);
    options.username = given(words[4]);
    options.password = given(words[5]);
    if (given(words[6]) != NULL) {
        options.will = &will;
        will.topicName = words[6];
        will.qos = atoi(words[7]);
        will.retained = atoi(words[8]);
        will.payload.len = bytes(words[9]);
        will.payload.data = words[9];
    }
    must(MQTTClient_connect(client, &options), "connect");
}

static void publish(void) { /* topic qos retain back payload */
    MQTTClient_deliveryToken token;
    int length = bytes(words[5]);
    must(MQTTClient_publish(client, words[1], length, words[5], atoi(words[2]), atoi(words[3]), &token), "publish");
    must(MQTTClient_waitForCompletion(client, token, PATIENCE), "publish's acknowledgement");
    if (given(words[4]) != NULL)
        while (!receive(PATIENCE, words[1])) {}
}

static void subscribe(void) { /* qos filter, as often as there are */
    char *filters[MOST];
    int qos[MOST], n = 0;
    for (; 2 * n + 2 < count; n++) {
        qos[n] = atoi(words[2 * n + 1]);
        filters[n] = words[2 * n + 2];
    }
    must(MQTTClient_subscribeMany(client, n, filters, qos), "subscribe");
}

int main(int argc, char **argv) {
    char *line = NULL;
    size_t room = 0;
    if (argc != 2) return 2;
    while (getline(&line, &room, stdin) > 0) {
        char *rest = line;
        line[strcspn(line, "\n")] = 0;
        for (count = 0; count < MOST && rest != NULL; count++) words[count] = strsep(&rest, "\t");
        if (strcmp(words[0], "connect") == 0) start(argv[1]);
        else if (strcmp(words[0], "publish") == 0) publish();
        else if (strcmp(words[0], "subscribe") == 0) subscribe();
        else if (strcmp(words[0], "unsubscribe") == 0)
            must(MQTTClient_unsubscribeMany(client, count - 1, words + 1), "unsubscribe");
        else if (strcmp(words[0], "idle") == 0) idle(atoi(words[1]));
        else if (strcmp(words[0], "disconnect") == 0) must(MQTTClient_disconnect(client, PATIENCE), "disconnect");
        else must(MQTTCLIENT_FAILURE, words[0]);
    }
    free(line);
    MQTTClient_destroy(&client);
    return 0;
}

/* libnice's ICE agent as a peer of examples/c/ice_check.c, with the same lines:
 *
 *     libnice_ice controlling|controlled
 *
 * It prints `HOST PORT UFRAG PASSWORD`, reads such a line, and prints `nominated as ROLE`, that in
 * which it began, once its component is ready, and `data TEXT` of what comes. It ends a second
 * after both, with status 0. Build: cc libnice_ice.c $(pkg-config --cflags --libs nice) */
#include <agent.h>
#include <stdio.h>
#include <stdlib.h>
#include <string.h>

static GMainLoop *loop;
static guint stream;
static gboolean is_ready, has_data;

static gboolean end(gpointer data) {
    (void)data;
    g_main_loop_quit(loop);
    return FALSE;
}

static void end_soon(void) {
    if (is_ready && has_data) g_timeout_add_seconds(1, end, NULL);
}

static gboolean send_data(gpointer agent) {
    nice_agent_send(agent, stream, 1, 12, "from libnice");
    return TRUE;
}

static void on_data(NiceAgent *agent, guint of, guint component, guint length, gchar *bytes,
                    gpointer data) {
    (void)agent, (void)of, (void)component, (void)data;
    if (has_data) return;
    printf("data %.*s\n", (int)length, bytes);
    has_data = TRUE;
    end_soon();
}

static void on_state(NiceAgent *agent, guint of, guint component, guint state, gpointer data) {
    gboolean is_controlling;
    (void)of, (void)component, (void)data;
    if (state == NICE_COMPONENT_STATE_FAILED) {
        fprintf(stderr, "libnice: failed\n");
        exit(1);
    }
    if (state != NICE_COMPONENT_STATE_READY || is_ready) return;
    g_object_get(agent, "controlling-mode", &is_controlling, NULL);
    printf("nominated as %s\n", is_controlling ? "controlling" : "controlled");
    is_ready = TRUE;
    send_data(agent);
    g_timeout_add(200, send_data, agent);
    end_soon();
}

/* Prints this side's line, and reads the other's. */
static void on_gathered(NiceAgent *agent, guint of, gpointer data) {
    char *name, *password, host[NICE_ADDRESS_STRING_LEN];
    char their_host[64], their_name[257], their_password[257];
    unsigned port;
    (void)of, (void)data;
    nice_agent_get_local_credentials(agent, stream, &name, &password);
    GSList *ours = nice_agent_get_local_candidates(agent, stream, 1);
    const NiceCandidate *first = ours->data;
    nice_address_to_string(&first->addr, host);
    printf("%s %u %s %s\n", host, nice_address_get_port(&first->addr), name, password);
    if (scanf("%63s %u %256s %256s", their_host, &port, their_name, their_password) != 4) exit(2);
    NiceCandidate *candidate = nice_candidate_new(NICE_CANDIDATE_TYPE_HOST);
    candidate->component_id = 1, candidate->stream_id = stream;
    candidate->transport = NICE_CANDIDATE_TRANSPORT_UDP;
    candidate->priority = 2130706431;
    strcpy(candidate->foundation, "1");
    nice_address_set_from_string(&candidate->addr, their_host);
    nice_address_set_port(&candidate->addr, port);
    nice_agent_set_remote_credentials(agent, stream, their_name, their_password);
    GSList *theirs = g_slist_append(NULL, candidate);
    nice_agent_set_remote_candidates(agent, stream, 1, theirs);
    g_slist_free_full(theirs, (GDestroyNotify)nice_candidate_free);
    g_slist_free_full(ours, (GDestroyNotify)nice_candidate_free);
    g_free(name);
    g_free(password);
}

static gboolean give_up(gpointer data) {
    (void)data;
    fprintf(stderr, "libnice: no time left\n");
    exit(1);
}

int main(int count, char **words) {
    if (count != 2) return 2;
    setvbuf(stdout, NULL, _IOLBF, 0);
    loop = g_main_loop_new(NULL, FALSE);
    g_timeout_add_seconds(30, give_up, NULL);
    NiceAgent *agent = nice_agent_new(g_main_loop_get_context(loop), NICE_COMPATIBILITY_RFC5245);
    NiceAddress *address = nice_address_new();
    nice_address_set_from_string(address, "127.0.0.1");
    gboolean is_controlling = strcmp(words[1], "controlling") == 0;
    g_object_set(agent, "controlling-mode", is_controlling, "ice-tcp", FALSE, "upnp", FALSE, NULL);
    nice_agent_add_local_address(agent, address);
    g_signal_connect(agent, "candidate-gathering-done", G_CALLBACK(on_gathered), NULL);
    g_signal_connect(agent, "component-state-changed", G_CALLBACK(on_state), NULL);
    stream = nice_agent_add_stream(agent, 1);
    nice_agent_attach_recv(agent, stream, 1, g_main_loop_get_context(loop), on_data, NULL);
    nice_agent_gather_candidates(agent, stream);
    g_main_loop_run(loop);
    g_object_unref(agent);
    return 0;
}

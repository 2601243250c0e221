/* Two agents of libnice in one process, which check a pair of candidates on 127.0.0.1 by ICE:
 *
 *     libnice_pair
 *
 * It prints `password UFRAG PASSWORD` for each, and ends once both are ready, with status 0. Build:
 * cc libnice_pair.c $(pkg-config --cflags --libs nice) */
#include <agent.h>
#include <stdio.h>
#include <stdlib.h>

static NiceAgent *agents[2];
static guint streams[2];
static GMainLoop *loop;
static int gathered, ready;

static void on_data(NiceAgent *agent, guint stream, guint component, guint length, gchar *bytes,
                    gpointer data) {
    (void)agent, (void)stream, (void)component, (void)length, (void)bytes, (void)data;
}

/* Gives an agent the other's credentials and candidates. */
static void introduce(int to, int from) {
    gchar *name, *password;
    nice_agent_get_local_credentials(agents[from], streams[from], &name, &password);
    printf("password %s %s\n", name, password);
    nice_agent_set_remote_credentials(agents[to], streams[to], name, password);
    GSList *candidates = nice_agent_get_local_candidates(agents[from], streams[from], 1);
    nice_agent_set_remote_candidates(agents[to], streams[to], 1, candidates);
    g_slist_free_full(candidates, (GDestroyNotify)nice_candidate_free);
    g_free(name);
    g_free(password);
}

static void on_gathered(NiceAgent *agent, guint stream, gpointer data) {
    (void)agent, (void)stream, (void)data;
    if (++gathered == 2) {
        introduce(1, 0);
        introduce(0, 1);
    }
}

static void on_state(NiceAgent *agent, guint stream, guint component, guint state, gpointer data) {
    (void)agent, (void)stream, (void)component, (void)data;
    if (state == NICE_COMPONENT_STATE_READY && ++ready == 2) g_main_loop_quit(loop);
}

static gboolean give_up(gpointer data) {
    (void)data;
    exit(1);
}

int main(void) {
    loop = g_main_loop_new(NULL, FALSE);
    g_timeout_add_seconds(20, give_up, NULL);
    NiceAddress *address = nice_address_new();
    nice_address_set_from_string(address, "127.0.0.1");
    for (int i = 0; i < 2; i++) {
        agents[i] = nice_agent_new(g_main_loop_get_context(loop), NICE_COMPATIBILITY_RFC5245);
        g_object_set(agents[i], "controlling-mode", i == 0, "ice-tcp", FALSE, "upnp", FALSE, NULL);
        nice_agent_set_software(agents[i], "two agents");
        nice_agent_add_local_address(agents[i], address);
        g_signal_connect(agents[i], "candidate-gathering-done", G_CALLBACK(on_gathered), NULL);
        g_signal_connect(agents[i], "component-state-changed", G_CALLBACK(on_state), NULL);
        streams[i] = nice_agent_add_stream(agents[i], 1);
        nice_agent_attach_recv(agents[i], streams[i], 1, g_main_loop_get_context(loop), on_data,
                               NULL);
    }
    for (int i = 0; i < 2; i++) nice_agent_gather_candidates(agents[i], streams[i]);
    g_main_loop_run(loop);
    return 0;
}

/* A player over libdmapsharing, the library of Rhythmbox and Grilo. It connects to a share at 127.0.0.1 and the port that is
 * given, and prints a line for each song (its id, title, artist, album, year and seconds) and for each playlist (its name and
 * how many songs it has). Ends with 1 if the connection fails. */
#include <libdmapsharing/daap-connection.h>
#include <libdmapsharing/daap-record.h>
#include <stdio.h>
#include <stdlib.h>

/* A song keeps each property that the library sets, by its name. */
typedef struct {
    GObject parent;
    GHashTable *values;
} Song;

typedef struct {
    GObjectClass parent;
} SongClass;

static void song_record_init(gpointer face, gpointer data) {}

G_DEFINE_TYPE_WITH_CODE(Song, song, G_TYPE_OBJECT, G_IMPLEMENT_INTERFACE(DMAP_TYPE_RECORD, song_record_init)
    G_IMPLEMENT_INTERFACE(DAAP_TYPE_RECORD, song_record_init))

static void song_init(Song *song) {
    song->values = g_hash_table_new_full(g_str_hash, g_str_equal, g_free, g_free);
}

static void song_finalize(GObject *object) {
    g_hash_table_unref(((Song *)object)->values);
    G_OBJECT_CLASS(song_parent_class)->finalize(object);
}

static void set_property(GObject *object, guint id, const GValue *value, GParamSpec *spec) {
    gchar *text = G_VALUE_HOLDS_STRING(value) ? g_value_dup_string(value) : g_strdup_value_contents(value);
    g_hash_table_insert(((Song *)object)->values, g_strdup(spec->name), text ? text : g_strdup(""));
}

static void get_property(GObject *object, guint id, GValue *value, GParamSpec *spec) {}

static void song_class_init(SongClass *class) {
    GObjectClass *object = G_OBJECT_CLASS(class);
    GType faces[] = {DMAP_TYPE_RECORD, DAAP_TYPE_RECORD};
    guint id = 0;
    object->finalize = song_finalize;
    object->set_property = set_property;
    object->get_property = get_property;
    for (guint face = 0; face < G_N_ELEMENTS(faces); face++) {
        guint count;
        GParamSpec **specs = g_object_interface_list_properties(g_type_default_interface_ref(faces[face]), &count);
        for (guint at = 0; at < count; at++)
            g_object_class_override_property(object, ++id, specs[at]->name);
        g_free(specs);
    }
}

static const gchar *value_of(Song *song, const gchar *name) {
    const gchar *found = g_hash_table_lookup(song->values, name);
    return found ? found : "";
}

/* The factory makes a song for each row. */
typedef struct {
    GObject parent;
} Factory;

typedef struct {
    GObjectClass parent;
} FactoryClass;

static DMAPRecord *create(DMAPRecordFactory *factory, gpointer data) { return DMAP_RECORD(g_object_new(song_get_type(), NULL)); }

static void factory_face_init(gpointer face, gpointer data) { ((DMAPRecordFactoryIface *)face)->create = create; }

G_DEFINE_TYPE_WITH_CODE(Factory, factory, G_TYPE_OBJECT, G_IMPLEMENT_INTERFACE(DMAP_TYPE_RECORD_FACTORY, factory_face_init))

static void factory_init(Factory *factory) {}

static void factory_class_init(FactoryClass *class) {}

/* The database prints each song that is added. */
typedef struct {
    GObject parent;
    gint64 count;
} Database;

typedef struct {
    GObjectClass parent;
} DatabaseClass;

static guint add_with_id(DMAPDb *db, DMAPRecord *record, guint id) {
    Song *song = (Song *)record;
    ((Database *)db)->count++;
    printf("%u\t%s\t%s\t%s\t%s\t%s\n", id, value_of(song, "title"), value_of(song, "songartist"), value_of(song, "songalbum"),
        value_of(song, "year"), value_of(song, "duration"));
    return id;
}

static guint add(DMAPDb *db, DMAPRecord *record) { return add_with_id(db, record, ((Database *)db)->count + 1); }

static gint64 count(const DMAPDb *db) { return ((const Database *)db)->count; }

static void database_face_init(gpointer given, gpointer data) {
    DMAPDbIface *face = given;
    face->add = add;
    face->add_with_id = add_with_id;
    face->count = count;
}

G_DEFINE_TYPE_WITH_CODE(Database, database, G_TYPE_OBJECT, G_IMPLEMENT_INTERFACE(DMAP_TYPE_DB, database_face_init))

static void database_init(Database *database) {}

static void database_class_init(DatabaseClass *class) {}

static gboolean connected(DMAPConnection *connection, gboolean result, const char *reason, gpointer loop) {
    if (!result) {
        fprintf(stderr, "not connected: %s\n", reason);
        exit(1);
    }
    for (GSList *at = dmap_connection_get_playlists(connection); at; at = at->next) {
        DMAPPlaylist *list = at->data;
        printf("list\t%s\t%u\n", list->name, g_list_length(list->uris));
    }
    g_main_loop_quit(loop);
    return TRUE;
}

int main(int count, char **words) {
    GMainLoop *loop = g_main_loop_new(NULL, FALSE);
    DMAPDb *db = DMAP_DB(g_object_new(database_get_type(), NULL));
    DMAPRecordFactory *factory = DMAP_RECORD_FACTORY(g_object_new(factory_get_type(), NULL));
    DAAPConnection *connection = daap_connection_new("share", "127.0.0.1", atoi(words[1]), db, factory);
    dmap_connection_connect(DMAP_CONNECTION(connection), connected, loop);
    g_main_loop_run(loop);
    return 0;
}

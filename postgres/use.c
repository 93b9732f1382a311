/* What each function of the extension checks before it does anything: that
   the library fits the extension's SQL, and that a budget binds where it is
   set. PostgreSQL takes a setting of ours in any session, but refuses nothing
   there unless the library is loaded. */
#include "own_tables.h"
#include "statistics.h"

#include "access/genam.h"
#include "access/htup_details.h"
#include "access/table.h"
#include "catalog/pg_db_role_setting.h"
#include "catalog/pg_extension.h"
#include "catalog/pg_type.h"
#include "commands/dbcommands.h"
#include "fmgr.h"
#include "miscadmin.h"
#include "utils/array.h"
#include "utils/builtins.h"
#include "utils/fmgroids.h"
#include "utils/guc.h"
#include "utils/guc_tables.h"
#include "utils/rel.h"
#include "utils/varlena.h"

PG_FUNCTION_INFO_V1(safebound_budget_of);
PG_FUNCTION_INFO_V1(safebound_loads);
PG_FUNCTION_INFO_V1(safebound_server_setting);

#define LIBRARY_VERSION                                                       \
	CppAsString2(SAFEBOUND_VERSION_MAJOR) "." CppAsString2(                   \
		SAFEBOUND_VERSION_MINOR) "." CppAsString2(SAFEBOUND_VERSION_PATCH)

/* The version of the extension's SQL in this database; NULL if the extension
 * isn't there. */
static char *
sql_version(void)
{
	Relation extensions = table_open(ExtensionRelationId, AccessShareLock);
	ScanKeyData key;
	SysScanDesc scan;
	HeapTuple tuple;
	char *version = NULL;

	ScanKeyInit(&key, Anum_pg_extension_extname, BTEqualStrategyNumber,
				F_NAMEEQ, CStringGetDatum("safebound"));
	scan = systable_beginscan(extensions, ExtensionNameIndexId, true, NULL, 1,
							  &key);
	tuple = systable_getnext(scan);
	if (HeapTupleIsValid(tuple))
	{
		bool null;
		Datum value = heap_getattr(tuple, Anum_pg_extension_extversion,
								   RelationGetDescr(extensions), &null);

		version = TextDatumGetCString(value);
	}
	systable_endscan(scan);
	table_close(extensions, AccessShareLock);
	return version;
}

static void
say_misfit(int level, const char *version)
{
	ereport(level,
			(errcode(ERRCODE_OBJECT_NOT_IN_PREREQUISITE_STATE),
			 errmsg("the library of safebound has version %s and does "
					"nothing, since the extension in this database has "
					"version %s",
					LIBRARY_VERSION, version),
			 errhint("ALTER EXTENSION safebound UPDATE makes them fit.")));
}

/* Whether the library fits the extension's SQL in this database. If it
 * doesn't, a session is told once. */
bool
library_fits(void)
{
	static bool told = false;
	char *version = sql_version();
	bool fits = version != NULL && strcmp(version, LIBRARY_VERSION) == 0;

	if (version != NULL && !fits && !told)
	{
		told = true;
		say_misfit(WARNING, version);
	}
	return fits;
}

/* Whether a list of libraries, as a setting has it, has this one. */
static bool
loads_library(const char *list)
{
	List *names;
	ListCell *cell;

	if (!SplitDirectoriesString(pstrdup(list), ',', &names))
		return false;
	foreach (cell, names)
	{
		char *path = lfirst(cell);
		char *slash = last_dir_separator(path);
		char *name = slash ? slash + 1 : path;

		if (strcmp(name, "safebound") == 0 ||
			strcmp(name, "safebound" DLSUFFIX) == 0)
			return true;
	}
	return false;
}

/* What a value of safebound.budget means. A value that PostgreSQL refuses when
 * the library is loaded leaves the default, 0. */
static int
budget_of(const char *value)
{
	int number;

	return parse_int(value, &number, 0, NULL) && number > 0 ? number : 0;
}

Datum
safebound_budget_of(PG_FUNCTION_ARGS)
{
	PG_RETURN_INT32(budget_of(text_to_cstring(PG_GETARG_TEXT_PP(0))));
}

Datum
safebound_loads(PG_FUNCTION_ARGS)
{
	PG_RETURN_BOOL(loads_library(text_to_cstring(PG_GETARG_TEXT_PP(0))));
}

/* The value to which RESET brings a setting, without a look at rights. */
static const char *
reset_value(struct config_generic *setting)
{
	const char *text = NULL;

	if (setting->vartype == PGC_INT)
		return psprintf("%d", ((struct config_int *) setting)->reset_val);
	if (setting->vartype == PGC_STRING)
		text = ((struct config_string *) setting)->reset_val;
	return text ? text : "";
}

/* A setting as the server has it for all sessions; NULL if this session can't
 * tell, since its role or its database has another value. */
static const char *
server_setting(const char *name)
{
	struct config_generic **settings = get_guc_variables();

	for (int i = 0; i < GetNumConfigOptions(); i++)
		if (strcmp(settings[i]->name, name) == 0)
			return settings[i]->reset_source > PGC_S_ARGV
				? NULL
				: reset_value(settings[i]);
	return "";
}

Datum
safebound_server_setting(PG_FUNCTION_ARGS)
{
	const char *value =
		server_setting(text_to_cstring(PG_GETARG_TEXT_PP(0)));

	if (value == NULL)
		PG_RETURN_NULL();
	PG_RETURN_TEXT_P(cstring_to_text(value));
}

/* What pg_db_role_setting says for a role and a database: each may be
 * InvalidOid, for all of them. */
typedef struct Saying
{
	Oid role;
	Oid database;
	bool budget; /* there is a budget */
	bool loads;  /* the library is loaded */
} Saying;

static void
read_entry(Saying *saying, const char *entry)
{
	const char *value = strchr(entry, '=');
	Size length = value ? value - entry : 0;
	char *name = pnstrdup(entry, length);

	if (value != NULL && pg_strcasecmp(name, "safebound.budget") == 0)
		saying->budget = budget_of(value + 1) > 0;
	if (value != NULL && strcmp(name, "session_preload_libraries") == 0)
		saying->loads = loads_library(value + 1);
}

static void
read_setting(Saying *saying, Relation settings, HeapTuple tuple)
{
	Form_pg_db_role_setting form =
		(Form_pg_db_role_setting) GETSTRUCT(tuple);
	Datum *entries;
	bool null, *nulls;
	int length;
	Datum array = heap_getattr(tuple, Anum_pg_db_role_setting_setconfig,
							   RelationGetDescr(settings), &null);

	*saying =
		(Saying){.role = form->setrole, .database = form->setdatabase};
	if (null)
		return;
	deconstruct_array(DatumGetArrayTypeP(array), TEXTOID, -1, false,
					  TYPALIGN_INT, &entries, &nulls, &length);
	for (int i = 0; i < length; i++)
		read_entry(saying, TextDatumGetCString(entries[i]));
}

static List *
all_sayings(void)
{
	Relation settings = table_open(DbRoleSettingRelationId, AccessShareLock);
	SysScanDesc scan =
		systable_beginscan(settings, InvalidOid, false, NULL, 0, NULL);
	List *sayings = NIL;
	HeapTuple tuple;

	while (HeapTupleIsValid(tuple = systable_getnext(scan)))
	{
		Saying *saying = palloc(sizeof(Saying));

		read_setting(saying, settings, tuple);
		sayings = lappend(sayings, saying);
	}
	systable_endscan(scan);
	table_close(settings, AccessShareLock);
	return sayings;
}

/* Whether the library is loaded in all sessions for which `budget` sets one.
 */
static bool
is_loaded(const Saying *budget, List *sayings)
{
	ListCell *cell;

	foreach (cell, sayings)
	{
		Saying *saying = lfirst(cell);

		if (saying->loads &&
			(saying->role == budget->role || !OidIsValid(saying->role)) &&
			(saying->database == budget->database ||
			 !OidIsValid(saying->database)))
			return true;
	}
	return false;
}

static bool
server_loads(void)
{
	const char *session = server_setting("session_preload_libraries");

	return loads_library(shared_preload_libraries_string) || session == NULL ||
		loads_library(session);
}

/* For whom a budget is set where the library isn't loaded; NULL for nobody. */
static char *
unbound_budget(void)
{
	const char *own = GetConfigOption("safebound.budget", true, false);
	List *sayings = all_sayings();
	ListCell *cell;

	if (own != NULL && budget_of(own) > 0 &&
		!loads_library(shared_preload_libraries_string) &&
		!loads_library(session_preload_libraries_string))
		return "this session";
	if (server_loads())
		return NULL;
	foreach (cell, sayings)
	{
		Saying *saying = lfirst(cell);

		if (!saying->budget || is_loaded(saying, sayings))
			continue;
		if (OidIsValid(saying->role))
			return psprintf("the role %s",
							quote_identifier(
								GetUserNameFromId(saying->role, false)));
		return OidIsValid(saying->database)
			? psprintf("the database %s",
					   quote_identifier(get_database_name(saying->database)))
			: "all roles";
	}
	return NULL;
}

/* Each function that is called by a user calls this first. */
void
check_use(void)
{
	char *whose;

	if (extension_presence() != PRESENT)
	{
		char *version = sql_version();

		say_misfit(ERROR, version ? version : "none");
	}
	whose = unbound_budget();
	if (whose != NULL)
		ereport(
			WARNING,
			(errmsg("safebound.budget is set for %s, and doesn't bind: no "
					"preload list has the library",
					whose),
			 errhint("Add safebound to session_preload_libraries there, or in "
					 "postgresql.conf. The view safebound.admission shows "
					 "whose budget binds.")));
}

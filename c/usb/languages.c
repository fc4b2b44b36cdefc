/* The sentences of errors, in libusb's languages (libusb 1.0, "Miscellaneous"): in English those that programs know, in the others our own.
 * They are in UTF-8, in the order of the errors' numbers, which go down from 0; the last one is that of LIBUSB_ERROR_OTHER, and of every
 * number that isn't an error's. */
#include "bus.h"

#include <strings.h>

static const struct {
    char code[3];
    const char *sentences[LIBUSB_ERROR_COUNT];
} languages[] = {
    { /* English */
        "en",
        {
            "Success",
            "Input/Output Error",
            "Invalid parameter",
            "Access denied (insufficient permissions)",
            "No such device (it may have been disconnected)",
            "Entity not found",
            "Resource busy",
            "Operation timed out",
            "Overflow",
            "Pipe error",
            "System call interrupted (perhaps due to signal)",
            "Insufficient memory",
            "Operation not supported or unimplemented on this platform",
            "Other error",
        },
    },
    { /* Dutch */
        "nl",
        {
            "Geslaagd",
            "Fout bij invoer of uitvoer",
            "Een parameter is ongeldig",
            "Geen toegang (er ontbreken rechten)",
            "Dit apparaat is er niet (misschien is het losgekoppeld)",
            "Er is niets gevonden",
            "Het is al in gebruik",
            "De tijd is verstreken",
            "Er kwamen meer gegevens dan verwacht",
            "Fout in het kanaal naar het apparaat",
            "Een systeemaanroep is onderbroken (misschien door een signaal)",
            "Er is te weinig geheugen",
            "Dit wordt hier niet ondersteund",
            "Een andere fout",
        },
    },
    { /* French */
        "fr",
        {
            "Réussi",
            "Erreur en entrée ou en sortie",
            "Un paramètre n'est pas valable",
            "Accès interdit (il manque des droits)",
            "Cet appareil n'est pas là (il a peut-être été débranché)",
            "Rien n'a été trouvé",
            "Déjà utilisé",
            "Le délai est dépassé",
            "Plus de données que prévu",
            "Erreur dans le canal vers l'appareil",
            "Un appel au système a été interrompu (peut-être par un signal)",
            "Pas assez de mémoire",
            "Cela n'est pas possible sur ce système",
            "Une autre erreur",
        },
    },
    { /* Russian */
        "ru",
        {
            "Выполнено",
            "Сбой при вводе или выводе",
            "Параметр недопустим",
            "Нет доступа (недостаточно полномочий)",
            "Такого устройства нет (возможно, его отключили)",
            "Ничего не найдено",
            "Уже используется",
            "Время ожидания вышло",
            "Данных больше, чем ожидалось",
            "Сбой в канале устройства",
            "Вызов системы был прерван (может быть, сигналом)",
            "Не хватает памяти",
            "Здесь это не поддерживается",
            "Другая ошибка",
        },
    },
    { /* German */
        "de",
        {
            "Gelungen",
            "Fehler bei Eingabe oder Ausgabe",
            "Ein Parameter ist ungültig",
            "Kein Zugriff (es fehlen Rechte)",
            "Dieses Gerät ist nicht da (vielleicht wurde es abgezogen)",
            "Nichts gefunden",
            "Schon in Gebrauch",
            "Die Zeit ist abgelaufen",
            "Es kamen mehr Daten als erwartet",
            "Fehler im Kanal zum Gerät",
            "Ein Systemaufruf wurde unterbrochen (vielleicht durch ein Signal)",
            "Zu wenig Speicher",
            "Das wird hier nicht unterstützt",
            "Ein anderer Fehler",
        },
    },
    { /* Hungarian */
        "hu",
        {
            "Sikerült",
            "Hiba bevitelkor vagy kivitelkor",
            "Egy paraméter hibás",
            "Nincs hozzáférés (hiányoznak a jogok)",
            "Ez az eszköz nincs itt (talán kihúzták)",
            "Semmi sem található",
            "Már használatban van",
            "Letelt az idő",
            "A vártnál több adat érkezett",
            "Hiba az eszköz csatornájában",
            "Egy rendszerhívás megszakadt (talán egy jel miatt)",
            "Kevés a memória",
            "Ez itt nem támogatott",
            "Más hiba",
        },
    },
};

/* The one that was chosen, for the whole process; atomic. */
static size_t chosen;

const char *libusb_strerror(int errcode)
{
    bool is_one = errcode <= 0 && errcode > 1 - LIBUSB_ERROR_COUNT;
    int place = is_one ? -errcode : LIBUSB_ERROR_COUNT - 1;
    return languages[__atomic_load_n(&chosen, __ATOMIC_RELAXED)].sentences[place];
}

/* A language has two letters, behind which a country or an encoding may stand. */
int libusb_setlocale(const char *locale)
{
    if (!locale || strlen(locale) < 2 || !strchr("-_.", locale[2]))
        return LIBUSB_ERROR_INVALID_PARAM;
    for (size_t i = 0; i < sizeof languages / sizeof languages[0]; i++) {
        if (strncasecmp(locale, languages[i].code, 2) == 0) {
            __atomic_store_n(&chosen, i, __ATOMIC_RELAXED);
            return LIBUSB_SUCCESS;
        }
    }
    return LIBUSB_ERROR_NOT_FOUND;
}

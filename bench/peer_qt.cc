// All types that Qt has of a name, and the type that it has of a file or a content; a type's name, icons, parents and aliases.
#include "peers.h"
#include <QByteArray>
#include <QFile>
#include <QMimeDatabase>
#include <QStringList>
#include <cstring>

namespace {

QByteArray bytes_of(const unsigned char *content, size_t length) {
    return QByteArray(reinterpret_cast<const char *>(content), static_cast<int>(length));
}

char *copied(const QString &text) {
    return strdup(text.toUtf8().constData());
}

} // namespace

char *by_name(const char *name) {
    QStringList names;
    for (const QMimeType &type : QMimeDatabase().mimeTypesForFileName(QFile::decodeName(name))) {
        names.append(type.name());
    }
    return copied(names.join(QLatin1Char(' ')));
}

char *by_file(const char *, const char *name, const unsigned char *content, size_t length) {
    return copied(QMimeDatabase().mimeTypeForFileNameAndData(QFile::decodeName(name), bytes_of(content, length)).name());
}

char *by_content(const unsigned char *content, size_t length) {
    return copied(QMimeDatabase().mimeTypeForData(bytes_of(content, length)).name());
}

char *of_type(const char *type) {
    const QMimeType found = QMimeDatabase().mimeTypeForName(QString::fromUtf8(type));
    const QStringList icons{found.name(), found.iconName(), found.genericIconName()};
    return copied((icons + found.parentMimeTypes() + found.aliases()).join(QLatin1Char(' ')));
}

"""The numbers of the HPROF format that the tools read: tags of records and sub-records, codes of types, sizes."""

import struct

MAGIC = b"JAVA PROFILE "
HEADER_SIZE = 31  # the last 8 bytes are the time
ID_SIZE_AT, TIME_AT = 19, 23
RECORD_HEAD_SIZE = 9  # the last 4 bytes are the size of the body
STRING, LOAD_CLASS, FRAME, TRACE, HEAP_DUMP, SEGMENT = 0x01, 0x02, 0x04, 0x05, 0x0C, 0x1C
CLASS_DUMP, INSTANCE, OBJECT_ARRAY, PRIMITIVE_ARRAY = 0x20, 0x21, 0x22, 0x23
OBJECTS = frozenset((INSTANCE, OBJECT_ARRAY, PRIMITIVE_ARRAY))
UNKNOWN, JNI_GLOBAL, JNI_LOCAL, JAVA_FRAME, NATIVE_STACK = 0xFF, 0x01, 0x02, 0x03, 0x04
STICKY_CLASS, THREAD_BLOCK, MONITOR, THREAD_OBJECT = 0x05, 0x06, 0x07, 0x08
#: The bytes of a root after its tag and its identifier. A JNI global has a further identifier.
ROOT_SIZES = {UNKNOWN: 0, STICKY_CLASS: 0, MONITOR: 0, NATIVE_STACK: 4, THREAD_BLOCK: 4}
ROOT_SIZES.update({JNI_LOCAL: 8, JAVA_FRAME: 8, THREAD_OBJECT: 8})
#: The roots that name their thread, and those of them that name a frame of its stack.
THREAD_ROOTS = frozenset((JNI_LOCAL, JAVA_FRAME, NATIVE_STACK, THREAD_BLOCK, THREAD_OBJECT))
FRAME_ROOTS = frozenset((JNI_LOCAL, JAVA_FRAME))
COUNT = struct.Struct(">I")
OBJECT, BOOLEAN, CHAR, FLOAT, DOUBLE, BYTE, SHORT, INT, LONG = 2, 4, 5, 6, 7, 8, 9, 10, 11  # codes of types
#: The bytes of a value of each type but references.
PRIMITIVE_SIZES = {BOOLEAN: 1, CHAR: 2, FLOAT: 4, DOUBLE: 8, BYTE: 1, SHORT: 2, INT: 4, LONG: 8}
#: The letters of the primitive types, by their codes, in the names of array classes.
LETTERS = dict(zip(range(BOOLEAN, LONG + 1), "ZCFDBSIJ"))

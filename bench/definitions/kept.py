"""Values that were made are kept by what they were made of, so that runs take seconds. No definition is changed by it."""
import definitions as D

KEPT = []


def clear():
    for kept in KEPT:
        kept.clear()


def keep(name):
    made, kept = getattr(D, name), {}
    KEPT.append(kept)

    def call(*given):
        key = tuple(map(id, given))
        if key not in kept:
            if len(kept) > 4000:
                kept.clear()
            kept[key] = (given, made(*given))
        return kept[key][1]

    setattr(D, name, call)


NAMES = ("xf_def_forest__Visit__visits", "xf_def_forest__Changes__root_of", "xf_def_forest__Order__instance_of", "xf_def_forest__StringValue__string_value", "xf_def_forest__Shape__shape",
         "xf_def_machine__Surround__documents", "xf_def_machine__Properties__values_in", "xf_def_ui__Elements__ancestors", "xf_def_ui__Elements__element_at",
         "xf_def_ui__Elements__repeats_around", "xf_def_ui__Calls__handlers", "xf_def_ui__Index__named_indexes")


def keep_all():
    for name in NAMES:
        keep(name)

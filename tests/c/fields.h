/* Each field of the slots, in the order of host/bruskelde.h, and nothing of the padding between them. */
#ifndef FIELDS_H
#define FIELDS_H

#include "../../host/bruskelde.h"

typedef void visit_field(void *field, size_t width);

#define FIELD(field) visit(&(field), sizeof(field))

static inline void each_of_frame_packing(struct bruskelde_held_frame_packing *held, visit_field *visit)
{
    struct bruskelde_frame_packing *value = &held->value;
    struct bruskelde_layout *layout = &value->layout;
    FIELD(held->on);
    FIELD(value->id);
    FIELD(value->cancel);
    FIELD(layout->arrangement_type);
    FIELD(layout->quincunx);
    FIELD(layout->content_interpretation);
    FIELD(layout->flags.spatial_flipping);
    FIELD(layout->flags.frame0_flipped);
    FIELD(layout->flags.field_views);
    FIELD(layout->flags.current_is_frame0);
    FIELD(layout->flags.frame0_self_contained);
    FIELD(layout->flags.frame1_self_contained);
    FIELD(layout->grid.frame0_x);
    FIELD(layout->grid.frame0_y);
    FIELD(layout->grid.frame1_x);
    FIELD(layout->grid.frame1_y);
    FIELD(layout->persistence);
    FIELD(value->upsampled_aspect_ratio);
}

static inline void each_of_orientation(struct bruskelde_held_orientation *held, visit_field *visit)
{
    FIELD(held->on);
    FIELD(held->value.cancel);
    FIELD(held->value.persistence);
    FIELD(held->value.transform);
}

static inline void each_of_equirectangular(struct bruskelde_held_equirectangular *held, visit_field *visit)
{
    FIELD(held->on);
    FIELD(held->value.cancel);
    FIELD(held->value.persistence);
    FIELD(held->value.guarded);
    FIELD(held->value.guard_type);
    FIELD(held->value.left_width);
    FIELD(held->value.right_width);
}

static inline void each_of_rotation(struct bruskelde_held_rotation *held, visit_field *visit)
{
    FIELD(held->on);
    FIELD(held->value.cancel);
    FIELD(held->value.persistence);
    FIELD(held->value.yaw);
    FIELD(held->value.pitch);
    FIELD(held->value.roll);
    FIELD(held->value.degrees.yaw);
    FIELD(held->value.degrees.pitch);
    FIELD(held->value.degrees.roll);
}

static inline void each_of_region(struct bruskelde_region *region, visit_field *visit)
{
    FIELD(region->transform);
    FIELD(region->guarded);
    FIELD(region->projected.width);
    FIELD(region->projected.height);
    FIELD(region->projected.top);
    FIELD(region->projected.left);
    FIELD(region->packed.width);
    FIELD(region->packed.height);
    FIELD(region->packed.top);
    FIELD(region->packed.left);
    FIELD(region->guard.left_width);
    FIELD(region->guard.right_width);
    FIELD(region->guard.top_height);
    FIELD(region->guard.bottom_height);
    FIELD(region->guard.not_used);
    FIELD(region->guard.types.type0);
    FIELD(region->guard.types.type1);
    FIELD(region->guard.types.type2);
    FIELD(region->guard.types.type3);
}

static inline void each_of_packing(struct bruskelde_held_packing *held, visit_field *visit)
{
    FIELD(held->on);
    FIELD(held->value.cancel);
    FIELD(held->value.persistence);
    FIELD(held->value.matching);
    FIELD(held->value.count);
    FIELD(held->value.projected_width);
    FIELD(held->value.projected_height);
    FIELD(held->value.packed_width);
    FIELD(held->value.packed_height);
    for (size_t i = 0; i < BRUSKELDE_MOST_REGIONS; i++)
        each_of_region(&held->value.regions[i], visit);
}

static inline void each_of_held(struct bruskelde_held *held, visit_field *visit)
{
    each_of_frame_packing(&held->frame_packing, visit);
    each_of_orientation(&held->orientation, visit);
    each_of_equirectangular(&held->equirectangular, visit);
    each_of_rotation(&held->rotation, visit);
    each_of_packing(&held->regions, visit);
}

static inline void each_of_slots(struct bruskelde_slots *slots, visit_field *visit)
{
    for (size_t i = 0; i < BRUSKELDE_SLOTS; i++) {
        FIELD(slots->slots[i].open);
        each_of_held(&slots->slots[i].held, visit);
    }
}

#undef FIELD

#endif

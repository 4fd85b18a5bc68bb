// Shapes of the plane.
export interface Circle {
    name: string;
    radius: number;
    filled: boolean;
}

export interface Square {
    name: string;
    side: number;
    filled: boolean;
}

export type Area = number;

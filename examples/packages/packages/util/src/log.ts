// A line of the log.
export interface Line {
    text: string;
    level: number;
    shown: boolean;
}

export type Level = number;

export const debug: number = 0;
export const warning: number = 1;
export const prefix: string = "shapes: ";
